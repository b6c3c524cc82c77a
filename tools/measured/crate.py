"""The crate `measured`, which is put into a copy of the repository: the engine's functions for C to call.

One piece's functions stand as they are. A call of the reel stands in a loop, since a reel does not pass through C: the
block is read once, and each call gets the reel that the one before it handed back. What is answered is gathered, and
the last reel is written, so that the compiler can leave nothing out. Where a call is refused, the loop gives -2^63.
"""

HEAD = """// The engine's functions for C to call, to be measured.
#![tactic(auto)]

ghost use Rattle.std.specs.Prelude.{◌*◌, ◌≤◌};
ghost use Rattle.rounding.specs.Piece.{piece, position_unit};
ghost use Rattle.rounding.specs.Size.{Admitted};

use reel::{Answer, Handed, Reel};

fn number(answer: Answer) -> i64 {
    match answer {
        Answer::Number(z) => z,
        Answer::Accepted => 1,
        Answer::Refused(_) => 0,
    }
}

fn refusals(answer: Answer) -> u32 {
    match answer {
        Answer::Number(_) => 0,
        Answer::Accepted => 0,
        Answer::Refused(_) => 1,
    }
}

fn told(refused: u32, gathered: i64) -> i64 {
    if refused == 0 {
        gathered
    } else {
        -9_223_372_036_854_775_808
    }
}

fn opened(block: &[u8]) -> Reel {
    Reel::empty().read(block).reel
}
"""

PIECE = """
#[unsafe(no_mangle)]
pub extern "C" fn {side}_{name}(h: u64, left: &[i32], right: &[i32], r: u64) -> i64
    requires {{ (Admitted (piece h left.now right.now)) × (r ≤ position_unit * h) }}
{{
    {call}
}}
"""

TURN = """
fn turn_{name}(reel: Reel, block: &[u8], list: &[i32], out: &mut [u8], x: u32, i: u32) -> Handed {{
    {call}
}}

#[unsafe(no_mangle)]
pub extern "C" fn {side}_reel_{name}(block: &[u8], list: &[i32], out: &mut [u8], x: u32, rounds: u32) -> i64 {{
    let mut reel = opened(block);
    let mut gathered = 0;
    let mut refused = 0;
    for i in 0..rounds {{
        let handed = turn_{name}(reel, block, list, out, x, i);
        reel = handed.reel;
        let answer = handed.answer;
        gathered = (gathered >> 1) ^ number(answer);
        refused = refused | refusals(answer);
    }}
    let written = reel.write(out);
    let answer = written.answer;
    told(refused, gathered ^ number(answer))
}}
"""

PIECES = {
    "value": "piece::value(h, left, right, r)",
    "trend": "piece::trend(h, left, right, r)",
    "total": "water::total(h, left, right)",
}

# The place of a query and of a correct moves with each turn, so that no turn can be taken for the one before it. An
# append needs room, and a same another reel: they stand behind a read of the block, and the time of a read is taken off.
# The other reel is the same; if same said no, the reel would be cleared, and the length of its last block would tell.
CALLS = {
    "append": "let read = reel.read(block);\n    let room = read.reel;\n    room.append(x, list)",
    "correct": "reel.correct(i & 1, list)",
    "read": "reel.read(block)",
    "write": "reel.write(out)",
    "value": "reel.value(x ^ (i & 63))",
    "trend": "reel.trend(x ^ (i & 63))",
    "total": "reel.total(0, x)",
    "same": "let read = reel.read(block);\n    let other = read.reel;\n    if reel.same(other) {\n        return read;\n    }\n    reel.clear()",
}


def put(repository, side):
    """Puts the crate into a copy of the repository, with the name of the side before each function's."""
    crate = repository / "crates" / "measured"
    (crate / "src").mkdir(parents=True)
    text = HEAD
    for name, call in PIECES.items():
        text += PIECE.format(side=side, name=name, call=call)
    for name, call in CALLS.items():
        text += TURN.format(side=side, name=name, call=call)
    (crate / "src" / "lib.rt").write_text(text)
    listed = repository / "crates.txt"
    below = next(line.split(":")[1] for line in listed.read_text().splitlines() if line.startswith("reel:"))
    listed.write_text(listed.read_text() + f"measured staticlib: reel{below}\n")
