#!/usr/bin/env bash
# sizes.sh: how many lines the definitions, the code and the proofs have.
set -euo pipefail
cd "$(dirname "$0")/.."
lines() { find "$@" -print0 | xargs -0 cat | wc -l; }
echo "definitions of the rule book:        $(lines crates/protocol/specs crates/protocol/specs/Cases -maxdepth 1 -name '*.antt')"
echo "proof of demand 3:                   $(lines crates/protocol/proofs/Recovery -name '*.antt')"
echo "claims of document 02, with proofs:  $(lines crates/protocol/specs/Changes crates/protocol/proofs/Changes -name '*.antt')"
echo "laws of lists, maps and questions:   $(lines crates/lists/specs -name '*.antt')"
echo "code:                                $(lines crates -path '*/src/*.rt')"
echo "what its contracts say, and laws:    $(lines crates -path '*/specs/*.antt' -not -path 'crates/protocol/*' -not -path 'crates/lists/*')"
echo "proofs of its functions:             $(lines crates -path '*/proofs/*.antt' -not -path 'crates/protocol/*')"
echo "second implementation:               $(lines reference/src -name '*.rs')"
echo "command for people:                  $(lines explained/src -name '*.rs')"
echo "must-fail edits: $(find crates -name '*.edit' | wc -l) in the gate, $(find must-fail -name '*.edit' | wc -l) beyond it"
