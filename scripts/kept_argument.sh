#!/usr/bin/env bash
# Tries programs that drop a record and look afterwards at what was read of it: at an argument, and
# at a call's request. Neither may compile, since both borrow the record. With the record dropped
# last both compile and pass their test, so nothing else refuses them. What the compiler says of
# each is compared with kept_argument.expected. The last line is 'as expected'; else the difference
# is told, and the status is 1.
#
# scripts/kept_argument.sh: wants the toolchain's rt. Three programs, two minutes together.
set -u
top=$(realpath "$(dirname "$0")/..")
expected=$top/scripts/kept_argument.expected
folder=$(mktemp -d)
trap 'rm -r "$folder"' EXIT
below='xdr model_tree model wire rpc'

# The crates below, and one more above them.
for name in $below; do
    mkdir -p "$folder/crates/$name"
    cp -r "$top/crates/$name/src" "$top/crates/$name/specs" "$folder/crates/$name"
    [ ! -d "$top/crates/$name/proofs" ] || cp -r "$top/crates/$name/proofs" "$folder/crates/$name"
    grep "^$name:" "$top/crates.txt" >> "$folder/crates.txt"
done
echo "kept: $below" >> "$folder/crates.txt"
mkdir -p "$folder/crates/kept/src"
cd "$folder/crates/kept" || exit 1

# The program, which does with an argument and with a request what these lines say.
write() {
    cat > src/lib.rt << PROGRAM
//! What is read of a record.
#![tactic(auto)]

use rpc::{CallRead, Request, read_call};
use std::alloc::Global;
use wire::{Argument, Operation};
use xdr::{Reader, Refusal};

/// The operation of the first argument in a record.
pub fn operation_of(alloc: Global, record: Vec<u8>) -> Result<Operation, Refusal> {
    let mut at = Reader::new(&record);
    let argument = Argument::read_numbered(alloc, &mut at)?;
$1
    Ok(operation)
}

/// Whether the call in a record asks for a COMPOUND.
pub fn runs(record: Vec<u8>) -> bool {
    let Ok(CallRead::Calls(call)) = read_call(&record) else {
        return false;
    };
    let request = call.request();
$2
    runs
}

#[cfg(test)]
mod tests {
    use super::{operation_of, runs};
    use std::test::Fail;
    use wire::Operation;

    #[test]
    fn both_are_read(rt: HostRuntime) -> Result<(), Fail> {
        let alloc = rt.alloc();
        let getfh = vec![in alloc; 0, 0, 0, 10]?;
        let operation = operation_of(alloc, getfh)?;
        assert!(rt; operation == Operation::GetFh);
        assert!(rt; !runs(Vec::new(alloc)));
        Ok(())
    }
}
PROGRAM
}

# What the compiler says of it: its errors, and whether its test passed.
try() {
    echo "$1"
    rt try --test 2>&1 | grep -E 'error|^test result' | sed 's/^/  /'
}

argument_first='    let operation = argument.operation();
    drop(argument);
    drop(record);'
record_first='    drop(record);
    let operation = argument.operation();
    drop(argument);'
request_first='    let runs = matches!(request, Request::Runs(_, _));
    drop(request);
    drop(record);'
record_before_request='    drop(record);
    let runs = matches!(request, Request::Runs(_, _));
    drop(request);'

{
    write "$argument_first" "$request_first"
    try 'the records are dropped last'
    write "$record_first" "$request_first"
    try 'an argument is kept'
    write "$argument_first" "$record_before_request"
    try 'a request is kept'
} > told.txt
diff "$expected" told.txt || exit 1
echo 'as expected'
