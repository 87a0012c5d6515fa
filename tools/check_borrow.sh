#!/usr/bin/env bash
# Shows that a frame can't outlive the payload that it borrows: a small crate that uses a frame after it gave its payload
# away is refused by the borrow checker, and the same crate without that one line runs. No must-fail edit can say this,
# since such code never reaches the prover.
set -u
cd "$(dirname "$0")/.."
top=$(mktemp -d)
trap 'rm -rf "$top"' EXIT
for crate in qc_base qc_frame; do
    mkdir -p "$top/crates/$crate"
    cp -r "crates/$crate/src" "crates/$crate/specs" "crates/$crate/proofs" "$top/crates/$crate"
done
grep -E '^(qc_base|qc_frame):' crates.txt >"$top/crates.txt"
echo 'escaping: qc_base qc_frame' >>"$top/crates.txt"
cp HANDLES "$top"
mkdir -p "$top/crates/escaping/src"
cat >"$top/escaping.rt" <<'RATTLE'
//! The frame at the front of a payload.
#![tactic(auto)]

use qc_frame::{Frame, first_frame};

/// Whether the frame is a PING.
fn is_ping(frame: &Frame<'_>) -> bool {
    match frame {
        Frame::Ping => true,
        _ => false,
    }
}

/// Whether the payload begins with a PING.
pub fn begins_with_ping(payload: Vec<u8>) -> bool {
    match first_frame(payload.as_slice()) {
        Ok((read, _)) => {
            drop(payload);
            is_ping(&read.frame)
        }
        Err(_) => false,
    }
}

#[cfg(test)]
mod tests {
    use super::*;
    use std::test::Fail;

    #[test]
    fn a_ping_is_seen(rt: HostRuntime) -> Result<(), Fail> {
        let payload = Vec::from_slice(rt.alloc(), &[1])?;
        assert!(rt; begins_with_ping(payload));
        Ok(())
    }
}
RATTLE

# What a run of the crate's test says.
said() {
    (cd "$top/crates/escaping" && rt try --test 2>&1)
}

cp "$top/escaping.rt" "$top/crates/escaping/src/lib.rt"
refusal=$(said)
grep -q 'error\[borrow-e0505\]: cannot move out of `payload` because it is borrowed' <<<"$refusal" ||
    { echo "a frame that outlives its payload isn't refused:"; echo "$refusal"; exit 1; }
grep -v 'drop(payload);' "$top/escaping.rt" >"$top/crates/escaping/src/lib.rt"
run=$(said)
grep -q '1 passed; 0 failed' <<<"$run" || { echo "the same crate without that line doesn't run:"; echo "$run"; exit 1; }
echo "a frame that outlives its payload is refused"
