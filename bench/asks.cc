// Runs scripts of `v`, `a` and `q` lines on MiniSat's incremental interface, as chooser_bench runs them on a chooser.
#include <cstdio>
#include <cstdlib>
#include <string>
#include "minisat/core/Solver.h"

using namespace Minisat;

static std::string text_of(const char* path) {
    std::string text;
    char part[65536];
    size_t got;
    FILE* f = fopen(path, "r");
    if (!f) exit(2);
    while ((got = fread(part, 1, sizeof part, f)) > 0) text.append(part, got);
    fclose(f);
    return text;
}

int main(int argc, char** argv) {
    for (int i = 1; i < argc; i++) {
        std::string text = text_of(argv[i]);
        Solver s;
        int yes = 0, no = 0;
        const char* p = text.c_str();
        while (*p) {
            char call = *p++;
            vec<Lit> literals;
            int n = 0;
            while (*p && *p != '\n') {
                char* end;
                n = strtol(p, &end, 10);
                if (end == p) { p++; continue; }
                p = end;
                if (call != 'v') literals.push(mkLit(abs(n) - 1, n < 0));
            }
            if (*p) p++;
            if (call == 'v') for (int k = 0; k < n; k++) s.newVar();
            else if (call == 'a') s.addClause(literals);
            else if (call == 'q') { if (s.solve(literals)) yes++; else no++; }
        }
        printf("%s yes %d no %d refused 0\n", argv[i], yes, no);
    }
}
