// A second model of `lab`, written from docs/ alone.
//
//   lab               takes one job on standard input, prints what it comes to
//   lab --list FILE   the same for many jobs: FILE is a sequence of (length, bytes), the length in
//                     8 bytes, the lowest first; the results are printed in the same form
//
// Status 0, also where the result is a fault; 1 if input or output fails.

#include <algorithm>
#include <array>
#include <cstddef>
#include <cstdint>
#include <cstdio>
#include <cstring>
#include <optional>
#include <string>
#include <string_view>
#include <utility>
#include <vector>

namespace {

// ---------------------------------------------------------------- limits (REFUSALS, "Size limits")

constexpr std::size_t most_bytes = 65536;
constexpr std::size_t read_bytes = most_bytes + 1;  // one more is enough to know that there are too many
constexpr std::size_t most_digits = 6;
constexpr int most_side = 256;
constexpr int most_area = 16384;
constexpr int most_step = 10000;
constexpr std::size_t most_entries = 256;
constexpr int most_mask = 255;

// ---------------------------------------------------------------- faults (TEXT, "Faults")

enum Layer { of_field = 1, of_text = 2, of_bench = 3 };

struct Fault {
    Layer layer;
    int number;
    std::size_t line;
    int field;
};

Fault text_fault(int number, std::size_t line, int field = 0) { return {of_text, number, line, field}; }
Fault field_fault(int number, std::size_t line, int field) { return {of_field, number, line, field}; }
Fault bench_fault(int number, std::size_t line) { return {of_bench, number, line, 0}; }

// ---------------------------------------------------------------- lines, fields, numbers (TEXT)

struct Line {
    std::size_t number;
    std::vector<std::string_view> fields;  // at least one, also of a line without bytes

    std::string_view word() const { return fields.front(); }
};

// Goes over a text whose last line is finished. The line count runs on from map line to script.
class Lines {
public:
    explicit Lines(std::string_view text) : rest(text) {}

    bool at_end() const { return rest.empty(); }
    std::size_t line() const { return number; }

    Line next() {
        const std::size_t length = rest.find('\n');
        Line line{number, {}};
        std::string_view left = rest.substr(0, length);
        for (;;) {
            const std::size_t tab = left.find('\t');
            line.fields.push_back(left.substr(0, tab));
            if (tab == std::string_view::npos) break;
            left.remove_prefix(tab + 1);
        }
        rest.remove_prefix(length + 1);
        ++number;
        return line;
    }

private:
    std::string_view rest;
    std::size_t number = 1;
};

std::optional<int> number_of(std::string_view field) {
    if (field.empty() || field.size() > most_digits) return std::nullopt;
    if (field.front() == '0' && field.size() > 1) return std::nullopt;
    int number = 0;
    for (const char digit : field) {
        if (digit < '0' || digit > '9') return std::nullopt;
        number = 10 * number + (digit - '0');
    }
    return number;
}

// As above, with a minus allowed; `-0` is no number.
std::optional<int> signed_number_of(std::string_view field) {
    if (field.empty() || field.front() != '-') return number_of(field);
    const std::optional<int> number = number_of(field.substr(1));
    if (!number || *number == 0) return std::nullopt;
    return -*number;
}

// The number in field `place` (fields count from 1), or 22 there.
int number_at(const Line& line, int place, bool minus_allowed = false) {
    const std::string_view field = line.fields[static_cast<std::size_t>(place) - 1];
    const std::optional<int> number = minus_allowed ? signed_number_of(field) : number_of(field);
    if (!number) throw field_fault(22, line.number, place);
    return *number;
}

// 20 and 21: asked of the whole text, before anything on a line.
void check_whole(std::string_view text) {
    if (text.size() > most_bytes) throw text_fault(20, 0);
    if (!text.empty() && text.back() != '\n') {
        const auto finished = static_cast<std::size_t>(std::count(text.begin(), text.end(), '\n'));
        throw text_fault(21, finished + 1);
    }
}

// 23 and 24, which every kind of line begins with.
void check_line(const Line& line, std::string_view word, std::size_t fields) {
    if (line.word() != word) throw text_fault(23, line.number, 1);
    if (line.fields.size() != fields) throw text_fault(24, line.number);
}

// ---------------------------------------------------------------- the lattice (LATTICE)

using Byte = std::uint8_t;

struct Lattice {
    int width = 0;
    int height = 0;
    int phase = 0;
    std::vector<Byte> cells;  // row after row; of a cell the present weighs 1, the past 2, and the other bits are free

    Byte* row(int y) { return cells.data() + static_cast<std::size_t>(y) * static_cast<std::size_t>(width); }
};

int after(int side, int x) { return x + 1 == side ? 0 : x + 1; }
int before(int side, int x) { return x == 0 ? side - 1 : x - 1; }

// ---------------------------------------------------------------- block maps (MAPS)

using BlockTable = std::array<Byte, 16>;

constexpr BlockTable inverse_of(const BlockTable& table) {
    BlockTable inverse{};
    for (std::size_t v = 0; v < 16; ++v) inverse[table[v]] = static_cast<Byte>(v);
    return inverse;
}

constexpr BlockTable bbm_table{0, 8, 4, 3, 2, 5, 9, 7, 1, 6, 10, 11, 12, 13, 14, 15};
constexpr BlockTable critters_table{15, 14, 13, 3, 11, 5, 6, 1, 7, 9, 10, 2, 12, 4, 8, 0};
constexpr BlockTable tron_table{15, 1, 2, 3, 4, 5, 6, 7, 8, 9, 10, 11, 12, 13, 14, 0};

// Replaces in every block of the lattice's phase the four presents by what the table says.
void rewrite_blocks(Lattice& lattice, const BlockTable& table) {
    for (int y = lattice.phase; y < lattice.height; y += 2) {
        Byte* const here = lattice.row(y);
        Byte* const below = lattice.row(after(lattice.height, y));
        for (int x = lattice.phase; x < lattice.width; x += 2) {
            const int right = after(lattice.width, x);
            Byte& a = here[x];
            Byte& b = here[right];
            Byte& c = below[x];
            Byte& d = below[right];
            const int entry = table[static_cast<std::size_t>((a & 1) + 2 * (b & 1) + 4 * (c & 1) + 8 * (d & 1))];
            a = static_cast<Byte>((a & 0xfe) | (entry & 1));
            b = static_cast<Byte>((b & 0xfe) | (entry >> 1 & 1));
            c = static_cast<Byte>((c & 0xfe) | (entry >> 2 & 1));
            d = static_cast<Byte>((d & 0xfe) | (entry >> 3 & 1));
        }
    }
}

template <const BlockTable& table>
void block_forward(Lattice& lattice) {
    rewrite_blocks(lattice, table);
    lattice.phase = 1 - lattice.phase;
}

// The phase turns first: the blocks are those of the new phase.
template <const BlockTable& table>
void block_backward(Lattice& lattice) {
    static constexpr BlockTable inverse = inverse_of(table);
    lattice.phase = 1 - lattice.phase;
    rewrite_blocks(lattice, inverse);
}

// ---------------------------------------------------------------- cell maps (MAPS)

using CellTable = std::array<Byte, 4>;

constexpr CellTable exchange_table{0, 2, 1, 3};  // is its own inverse

void replace_cells(Lattice& lattice, const CellTable& table) {
    for (Byte& cell : lattice.cells) cell = static_cast<Byte>((cell & 0xfc) | table[cell & 3]);
}

// ---------------------------------------------------------------- the lift of Life (MAPS)

constexpr unsigned life_birth = 8;
constexpr unsigned life_survival = 12;

// XORs what Life gives into every past. Only presents are read, so the order of the cells is free.
// Where a side is 2, the cell before and the cell after are the same one, and it adds to both.
void answer_cells(Lattice& lattice) {
    const int width = lattice.width;
    std::array<int, most_side + 2> column{};  // presents of three cells; column x is at x + 1
    for (int y = 0; y < lattice.height; ++y) {
        const Byte* const north = lattice.row(before(lattice.height, y));
        Byte* const here = lattice.row(y);
        const Byte* const south = lattice.row(after(lattice.height, y));
        int* const sum = column.data() + 1;
        for (int x = 0; x < width; ++x) sum[x] = (north[x] & 1) + (here[x] & 1) + (south[x] & 1);
        sum[-1] = sum[width - 1];
        sum[width] = sum[0];
        for (int x = 0; x < width; ++x) {
            const int present = here[x] & 1;
            const int around = sum[x - 1] + sum[x] + sum[x + 1] - present;
            const unsigned mask = present == 1 ? life_survival : life_birth;
            here[x] = static_cast<Byte>(here[x] ^ (mask >> around & 1u) << 1);
        }
    }
}

void exchange_cells(Lattice& lattice) { replace_cells(lattice, exchange_table); }

void life2_forward(Lattice& lattice) {
    answer_cells(lattice);
    exchange_cells(lattice);
}

void life2_backward(Lattice& lattice) {
    exchange_cells(lattice);
    answer_cells(lattice);
}

// ---------------------------------------------------------------- named maps (MAPS)

// (bbm then (life2 conjugated by exchange)) times 3. `then` goes back in the opposite order, and a
// conjugation goes in by exchange forward and out by exchange back, whichever way life2 moves.
void mixed_forward(Lattice& lattice) {
    for (int made = 0; made < 3; ++made) {
        block_forward<bbm_table>(lattice);
        exchange_cells(lattice);
        life2_forward(lattice);
        exchange_cells(lattice);
    }
}

void mixed_backward(Lattice& lattice) {
    for (int made = 0; made < 3; ++made) {
        exchange_cells(lattice);
        life2_backward(lattice);
        exchange_cells(lattice);
        block_backward<bbm_table>(lattice);
    }
}

struct NamedMap {
    std::string_view name;
    void (*forward)(Lattice&);
    void (*backward)(Lattice&);
};

constexpr std::array<NamedMap, 5> named_maps{{
    {"bbm", block_forward<bbm_table>, block_backward<bbm_table>},
    {"critters", block_forward<critters_table>, block_backward<critters_table>},
    {"tron", block_forward<tron_table>, block_backward<tron_table>},
    {"life2", life2_forward, life2_backward},
    {"mixed", mixed_forward, mixed_backward},
}};

// ---------------------------------------------------------------- records (TEXT, "Scripts")

enum class Word { step, undo, redo, open, flip, clear, close };

struct Form {
    std::string_view spelling;
    Word word;
    std::size_t fields;
    bool in_session;  // permitted in session, else at rest
};

constexpr std::array<Form, 7> forms{{
    {"step", Word::step, 2, false},
    {"undo", Word::undo, 1, false},
    {"redo", Word::redo, 1, false},
    {"open", Word::open, 1, false},
    {"flip", Word::flip, 4, true},
    {"clear", Word::clear, 1, true},
    {"close", Word::close, 1, true},
}};

struct Record {
    std::size_t line;
    Word word;
    std::array<int, 3> numbers;  // of step the first; of flip column, row, mask
};

// Reads the script that is left. The order of the tests on a line is 23, 24, 25, 22.
std::vector<Record> read_script(Lines& lines) {
    std::vector<Record> records;
    bool in_session = false;
    while (!lines.at_end()) {
        const Line line = lines.next();
        const auto form = std::find_if(forms.begin(), forms.end(),
                                       [&](const Form& f) { return f.spelling == line.word(); });
        if (form == forms.end()) throw text_fault(23, line.number, 1);
        if (line.fields.size() != form->fields) throw text_fault(24, line.number);
        if (form->in_session != in_session) throw text_fault(25, line.number);
        Record record{line.number, form->word, {}};
        for (int place = 2; place <= static_cast<int>(form->fields); ++place) {
            record.numbers[static_cast<std::size_t>(place) - 2] = number_at(line, place, form->word == Word::step);
        }
        if (form->word == Word::open) in_session = true;
        if (form->word == Word::close) in_session = false;
        records.push_back(record);
    }
    if (in_session) throw text_fault(26, lines.line());
    return records;
}

// ---------------------------------------------------------------- boards (TEXT, "Boards")

// The next line, or 32: a line of the job is missing.
Line wanted_line(Lines& lines) {
    if (lines.at_end()) throw text_fault(32, lines.line());
    return lines.next();
}

std::optional<int> weight_of(char digit) {
    if (digit >= '0' && digit <= '9') return digit - '0';
    if (digit >= 'a' && digit <= 'f') return digit - 'a' + 10;
    return std::nullopt;
}

void read_row(const Line& line, Lattice& lattice) {
    check_line(line, "row", 2);
    const std::string_view digits = line.fields[1];
    if (digits.size() != 2 * static_cast<std::size_t>(lattice.width)) throw field_fault(31, line.number, 2);
    for (std::size_t at = 0; at < digits.size(); at += 2) {
        const std::optional<int> high = weight_of(digits[at]);
        const std::optional<int> low = weight_of(digits[at + 1]);
        if (!high || !low) throw field_fault(31, line.number, 2);
        lattice.cells.push_back(static_cast<Byte>(16 * *high + *low));
    }
}

bool is_side(int side) { return side % 2 == 0 && side >= 2 && side <= most_side; }

Lattice read_board(Lines& lines) {
    const Line line = wanted_line(lines);
    check_line(line, "board", 4);
    Lattice lattice;
    lattice.width = number_at(line, 2);
    lattice.height = number_at(line, 3);
    lattice.phase = number_at(line, 4);
    if (!is_side(lattice.width) || !is_side(lattice.height)) throw text_fault(1, line.number);
    if (lattice.width * lattice.height > most_area) throw text_fault(2, line.number);
    if (lattice.phase > 1) throw text_fault(3, line.number);
    for (int y = 0; y < lattice.height; ++y) read_row(wanted_line(lines), lattice);
    return lattice;
}

std::string written_board(const Lattice& lattice) {
    std::string text = "board\t" + std::to_string(lattice.width) + "\t" + std::to_string(lattice.height) + "\t" +
                       std::to_string(lattice.phase) + "\n";
    auto cell = lattice.cells.begin();
    for (int y = 0; y < lattice.height; ++y) {
        text += "row\t";
        for (int x = 0; x < lattice.width; ++x, ++cell) {
            text += "0123456789abcdef"[*cell / 16];
            text += "0123456789abcdef"[*cell % 16];
        }
        text += '\n';
    }
    return text;
}

// ---------------------------------------------------------------- the bench (BENCH)

struct Flip {
    int col;
    int row;
    int mask;
};

// A step by its count, which is never 0; an edit by its flips.
struct Action {
    int count = 0;
    std::vector<Flip> flips;

    std::size_t entries() const { return count != 0 ? 1 : flips.size(); }
};

class Bench {
public:
    Bench(const NamedMap& its_map, Lattice& its_lattice) : map(its_map), lattice(its_lattice) {}

    // Makes a record, or returns the number of the cause why not.
    std::optional<int> make(const Record& record) {
        switch (record.word) {
            case Word::step: return step(record.numbers[0]);
            case Word::undo: return undo();
            case Word::redo: return redo();
            case Word::open: undone.clear(); return std::nullopt;
            case Word::flip: return flip({record.numbers[0], record.numbers[1], record.numbers[2]});
            case Word::clear: flip_back(session); session.clear(); return std::nullopt;
            case Word::close: close(); return std::nullopt;
        }
        return std::nullopt;
    }

    int clock() const {
        int sum = 0;
        for (const Action& action : standing) sum += action.count;
        return sum;
    }

    std::size_t stand() const { return standing.size(); }
    std::size_t were_undone() const { return undone.size(); }

private:
    const NamedMap& map;
    Lattice& lattice;
    std::vector<Action> standing;  // S, the oldest first
    std::vector<Action> undone;    // U, the one that a redo takes next at the back
    std::vector<Flip> session;     // Q

    // Of S and Q: what was undone takes no room, for the calls that need room forget it.
    bool is_full() const {
        std::size_t used = session.size();
        for (const Action& action : standing) used += action.entries();
        return used >= most_entries;
    }

    void move_by(int count) {
        for (int made = 0; made < count; ++made) map.forward(lattice);
        for (int made = 0; made > count; --made) map.backward(lattice);
    }

    void make_flip(const Flip& flip) {
        Byte& cell = lattice.row(flip.row)[flip.col];
        cell = static_cast<Byte>(cell ^ flip.mask);
    }

    void flip_back(const std::vector<Flip>& flips) {
        for (auto flip = flips.rbegin(); flip != flips.rend(); ++flip) make_flip(*flip);
    }

    std::optional<int> step(int count) {
        if (count == 0 || count > most_step || count < -most_step) return 11;
        if (is_full()) return 17;
        move_by(count);
        standing.push_back({count, {}});
        undone.clear();
        return std::nullopt;
    }

    std::optional<int> undo() {
        if (standing.empty()) return 12;
        const Action& action = standing.back();
        move_by(-action.count);
        flip_back(action.flips);
        undone.push_back(std::move(standing.back()));
        standing.pop_back();
        return std::nullopt;
    }

    std::optional<int> redo() {
        if (undone.empty()) return 13;
        const Action& action = undone.back();
        move_by(action.count);
        for (const Flip& flip : action.flips) make_flip(flip);
        standing.push_back(std::move(undone.back()));
        undone.pop_back();
        return std::nullopt;
    }

    std::optional<int> flip(const Flip& flip) {
        if (flip.col >= lattice.width || flip.row >= lattice.height) return 15;
        if (flip.mask == 0 || flip.mask > most_mask) return 16;
        if (is_full()) return 17;
        make_flip(flip);
        session.push_back(flip);
        return std::nullopt;
    }

    void close() {
        if (!session.empty()) standing.push_back({0, session});
        session.clear();
    }
};

// ---------------------------------------------------------------- jobs (TEXT, "Jobs")

const NamedMap& read_map_line(Lines& lines) {
    const Line line = wanted_line(lines);
    check_line(line, "map", 2);
    for (const NamedMap& map : named_maps) {
        if (map.name == line.fields[1]) return map;
    }
    throw text_fault(9, line.number, 2);
}

// What a job comes to. The whole text is judged before the first record is made.
std::string done_text(std::string_view job) {
    check_whole(job);
    Lines lines(job);
    const NamedMap& map = read_map_line(lines);
    Lattice lattice = read_board(lines);
    const std::vector<Record> records = read_script(lines);
    Bench bench(map, lattice);
    for (const Record& record : records) {
        const std::optional<int> refusal = bench.make(record);
        if (refusal) throw bench_fault(*refusal, record.line);
    }
    return "done\t" + std::to_string(records.size()) + "\t" + std::to_string(bench.clock()) + "\t" +
           std::to_string(bench.stand()) + "\t" + std::to_string(bench.were_undone()) + "\n" +
           written_board(lattice);
}

// All that `lab` prints for a job (PROGRAMS, "lab").
std::string lab_text(std::string_view job) {
    try {
        return done_text(job);
    } catch (const Fault& fault) {
        return "fault\t" + std::to_string(fault.layer) + "\t" + std::to_string(fault.number) + "\t" +
               std::to_string(fault.line) + "\t" + std::to_string(fault.field) + "\n";
    }
}

// ---------------------------------------------------------------- input and output

bool print(std::string_view text) {
    return std::fwrite(text.data(), 1, text.size(), stdout) == text.size();
}

int answer_one() {
    std::setvbuf(stdin, nullptr, _IONBF, 0);  // so that no byte is taken beyond those that are asked for
    std::string job(read_bytes, '\0');
    job.resize(std::fread(job.data(), 1, job.size(), stdin));
    if (std::ferror(stdin)) return 1;
    return print(lab_text(job)) && std::fflush(stdout) == 0 ? 0 : 1;
}

std::string packed_length(std::uint64_t length) {
    std::string bytes;
    for (int at = 0; at < 8; ++at) bytes += static_cast<char>(length >> (8 * at) & 255u);
    return bytes;
}

// Reads `length` bytes and keeps of them what `lab` would have read. False if there are fewer.
bool read_packed(std::FILE* file, std::uint64_t length, std::string& job) {
    std::array<char, 4096> part{};
    job.clear();
    while (length > 0) {
        const auto wanted = static_cast<std::size_t>(std::min<std::uint64_t>(length, part.size()));
        if (std::fread(part.data(), 1, wanted, file) != wanted) return false;
        job.append(part.data(), std::min(wanted, read_bytes - job.size()));
        length -= wanted;
    }
    return true;
}

bool answer_packed(std::FILE* file) {
    std::string job;
    for (;;) {
        std::array<unsigned char, 8> bytes{};
        const std::size_t got = std::fread(bytes.data(), 1, bytes.size(), file);
        if (got == 0) return std::ferror(file) == 0 && std::fflush(stdout) == 0;
        if (got != bytes.size()) return false;
        std::uint64_t length = 0;
        for (std::size_t at = 8; at-- > 0;) length = length << 8 | bytes[at];
        if (!read_packed(file, length, job)) return false;
        const std::string answer = lab_text(job);
        if (!print(packed_length(answer.size())) || !print(answer)) return false;
    }
}

int answer_list(const char* name) {
    std::FILE* const file = std::fopen(name, "rb");
    const bool all = file != nullptr && answer_packed(file);
    if (file != nullptr) std::fclose(file);
    if (!all) std::fprintf(stderr, "lab: %s is not a list of packed jobs, or the output failed\n", name);
    return all ? 0 : 1;
}

}  // namespace

int main(int count, char** arguments) {
    if (count == 1) return answer_one();
    if (count == 3 && std::strcmp(arguments[1], "--list") == 0) return answer_list(arguments[2]);
    std::fprintf(stderr, "usage: lab < JOB, or lab --list FILE\n");
    return 1;
}
