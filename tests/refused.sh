#!/bin/sh
# Programs that misuse a session must be refused by the compiler, each under the name of its error.
# usage: tests/refused.sh; ends 0 if each is refused as it must be
cd "$(dirname "$0")/.." || exit 2
work=$(mktemp -d) || exit 2
trap 'rm -rf "$work"' EXIT
crate=$work/crates/misuse
mkdir -p "$crate/src"
cp -R crates.txt crates "$work"
echo 'misuse: kconfig tree session' >>"$work/crates.txt"
bad=0

# Checks the program with LINE in its place, and shows what the compiler says first.
program() { # LINE
    cat >"$crate/src/lib.rt" <<END
#![tactic(auto)]

use kconfig::{Fault, Given};
use session::Session;
use tree::Tree;

pub fn misuse(text: &[u8], out: &mut [u8]) -> Result<usize, Fault> {
    let mut tree = Tree::new();
    tree.read(text)?;
    let mut records = [Given::none(); 256];
    let session = Session::new(&tree, &mut records)?;
    $1
}
END
    (cd "$crate" && rt check) 2>&1 </dev/null
}

accept() { # NAME LINE
    if program "$2" | grep -q '^logic=proved'; then echo "$1: accepted"; else echo "$1: NOT ACCEPTED"; bad=1; fi
}

refuse() { # NAME ERROR LINE
    if program "$3" | grep -q "error\[$2\]"; then echo "$1: refused, $2"; else echo "$1: NOT REFUSED"; bad=1; fi
}

accept hand_over 'session.hand_over(&records, out)'
refuse use_after_hand_over borrow-e0382 'let end = session.hand_over(&records, out); session.full(&records, out)?; end'
refuse read_while_a_session_stands borrow-e0502 'let read = tree.read(text); let end = session.hand_over(&records, out); read?; end'
refuse let_a_session_go linear-value-let-go 'Ok(0)'
exit $bad
