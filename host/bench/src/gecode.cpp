// A book's sheets as Gecode's extensional constraints (Compact-Table; of a forbidden sheet a negative one), and the
// orders over them.
// The book has been accepted. So have the orders: only a place that isn't there is looked at.

#include <gecode/int.hh>
#include <gecode/search.hh>

#include <cstddef>
#include <cstdint>
#include <cstring>
#include <memory>
#include <vector>

using namespace Gecode;

namespace {

struct Sheet {
    std::vector<int> columns;
    TupleSet rows;
    bool forbids;
};

// What is built of a book once. The opening is a Session, settled; null for a dead one.
struct Tables {
    std::vector<int> values;
    std::vector<Sheet> sheets;
    std::unique_ptr<Space> opening;
};

// A row's tuples: a 255 is written out, as Gecode knows none.
void add(TupleSet &rows, const Tables &tables, const std::vector<int> &columns, const uint8_t *row, IntArgs &tuple,
         int from) {
    for (int i = from; i < tuple.size(); i++) {
        tuple[i] = row[i];
        if (row[i] == 255) {
            for (int v = 0; v < tables.values[columns[i]]; v++) {
                tuple[i] = v;
                add(rows, tables, columns, row, tuple, i + 1);
            }
            return;
        }
    }
    rows.add(tuple);
}

Sheet sheet_of(const Tables &tables, const uint8_t *entry, const uint8_t *blocks) {
    // 129 to 132 for a forbidden sheet of width 1 to 4.
    int width = entry[0] % 128;
    int count = entry[6] + 256 * entry[7];
    Sheet sheet{std::vector<int>(entry + 1, entry + 1 + width), TupleSet(width), entry[0] > 128};
    for (int r = 0; r < count; r++) {
        const uint8_t *row = blocks + 512 * (r / 127) + 4 * (r % 127);
        IntArgs tuple(width);
        add(sheet.rows, tables, sheet.columns, row, tuple, 0);
    }
    sheet.rows.finalize();
    return sheet;
}

class Session : public Space {
public:
    IntVarArray columns;

    explicit Session(const Tables &tables) : columns(*this, int(tables.values.size())) {
        for (int c = 0; c < columns.size(); c++) {
            columns[c] = IntVar(*this, 0, tables.values[c] - 1);
        }
        for (const Sheet &sheet : tables.sheets) {
            IntVarArgs places;
            for (int column : sheet.columns) {
                places << columns[column];
            }
            extensional(*this, places, sheet.rows, !sheet.forbids);
        }
        branch(*this, columns, INT_VAR_NONE(), INT_VAL_MIN());
    }

    explicit Session(Session &other) : Space(other) { columns.update(*this, other.columns); }

    Space *copy() override { return new Session(*this); }

    void narrow(int column, uint32_t mask) {
        int ranges[16][2];
        int count = 0;
        for (int v = 0; v < 32; v++) {
            if (!(mask >> v & 1)) {
                continue;
            }
            if (count > 0 && ranges[count - 1][1] == v - 1) {
                ranges[count - 1][1] = v;
            } else {
                ranges[count][0] = ranges[count][1] = v;
                count++;
            }
        }
        if (count == 0) {
            fail();
        } else {
            dom(*this, columns[column], IntSet(ranges, count));
        }
    }

    void show(uint32_t *domains) const {
        for (int c = 0; c < columns.size(); c++) {
            for (IntVarValues v(columns[c]); v(); ++v) {
                domains[c] |= uint32_t(1) << v.val();
            }
        }
    }
};

using Held = std::unique_ptr<Session>;

// Null for a failed one, which Gecode doesn't copy.
Held settled(Held session) { return session && session->status() != SS_FAILED ? std::move(session) : nullptr; }

Held copied(const Held &session) { return Held(session ? static_cast<Session *>(session->clone()) : nullptr); }

// Of so many choices one keeps a copy; the others are computed again.
Held first_solution(Space *session, unsigned distance) {
    if (!session) {
        return nullptr;
    }
    Search::Options options;
    options.threads = 1;
    options.c_d = distance;
    DFS<Session> search(static_cast<Session *>(session), options);
    return Held(search.next());
}

void show(const Held &session, uint32_t *domains) {
    if (domains) {
        std::memset(domains, 0, 16 * sizeof *domains);
        if (session) {
            session->show(domains);
        }
    }
}

} // namespace

extern "C" {

uint32_t gecode_version() { return GECODE_VERSION_NUMBER; }

uint32_t gecode_distance() { return Search::Config::c_d; }

void *gecode_tables(const uint8_t *book) {
    auto tables = new Tables;
    tables->values.assign(book + 8, book + 8 + book[4]);
    const uint8_t *blocks = book + 512;
    for (int s = 0; s < book[5]; s++) {
        const uint8_t *entry = book + 24 + 8 * s;
        tables->sheets.push_back(sheet_of(*tables, entry, blocks));
        blocks += 512 * ((entry[6] + 256 * entry[7] + 126) / 127);
    }
    return tables;
}

void gecode_free_tables(void *tables) { delete static_cast<Tables *>(tables); }

void gecode_open(void *built) {
    auto tables = static_cast<Tables *>(built);
    tables->opening = settled(Held(new Session(*tables)));
}

void gecode_finish(const void *tables, uint32_t distance) {
    first_solution(static_cast<const Tables *>(tables)->opening.get(), distance);
}

// Orders of 8 bytes. The domains are 16 for the opening and 16 for each order, or null.
void gecode_run(const void *tables, uint32_t distance, const uint8_t *orders, size_t count, uint32_t *domains) {
    Held now = settled(Held(new Session(*static_cast<const Tables *>(tables))));
    std::vector<Held> marks;
    show(now, domains);
    for (size_t i = 0; i < count; i++) {
        const uint8_t *order = orders + 8 * i;
        uint32_t *shown = domains ? domains + 16 * (i + 1) : nullptr;
        uint32_t mask;
        std::memcpy(&mask, order + 4, 4);
        if (order[0] == 1 && now && order[1] < now->columns.size()) {
            now->narrow(order[1], mask);
            now = settled(std::move(now));
        } else if (order[0] == 2) {
            marks.push_back(copied(now));
        } else if (order[0] == 3 && order[1] - 1u < marks.size()) {
            now = std::move(marks[order[1] - 1]);
            marks.resize(order[1] - 1);
        }
        if (order[0] == 4) {
            show(first_solution(now.get(), distance), shown);
        } else {
            show(now, shown);
        }
    }
}
}
