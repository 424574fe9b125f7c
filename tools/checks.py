"""What the scripts that check the models share: a check, and how many passed."""

passed = 0


def check(what, got, expected):
    global passed
    if got != expected:
        raise AssertionError(f"{what}: got {got}, expected {expected}")
    passed += 1


def tell_passed(model):
    print(f"{model}: {passed} checks passed")
