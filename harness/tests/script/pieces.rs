//! Input that arrives in pieces: the reply is that to the whole.

use harness::program::run_in_pieces;

#[test]
fn byte_by_byte() {
    let input = b"o 1 p 0\n+ o[p]\nn\n+ o[p]\nn\nok\n";
    let pieces: Vec<&[u8]> = input.chunks(1).collect();
    assert_eq!(
        run_in_pieces(&pieces).output,
        "propose 0 0 1\nask p\npropose 1 1 2\nask o[o[p]]\npropose 2 2 2\naccepted\n"
    );
}

#[test]
fn long_input() {
    let input = [&b"o 1 p 0\n"[..], &b"+ p\n- p\n".repeat(20_000)].concat();
    for size in [1_000, 4_096, 5_000, 65_536] {
        let pieces: Vec<&[u8]> = input.chunks(size).collect();
        let output = run_in_pieces(&pieces).output;
        assert!(output == oracle::script::run(&input), "pieces of {size}");
    }
}
