//! The worked run (docs/SPECIFICATION.md, §9): o has one child, p none; the archive keeps o[p] alone.

use kuldveth_host::{fits, load, List, Phase, Refusal, Run, Told, Verdict};

/// One line for what a call told.
fn show(told: Told) {
    match told.phase {
        Phase::Proposing => println!("propose {} {} {}", told.states, told.rules, told.contexts),
        Phase::Asking { row } => println!("ask row {row}"),
        Phase::Accepted => println!("accepted"),
    }
}

/// One line for the verdict on a record.
fn judge(run: &Run, symbols: &[u8]) {
    print!("verdict on");
    for symbol in symbols {
        print!(" {symbol}");
    }
    match run.verdict(symbols) {
        Err(refusal) => println!(": refused {}", refusal.number()),
        Ok(Verdict::Accepted) => println!(": accepted"),
        Ok(Verdict::NotFinal) => println!(": not final"),
        Ok(Verdict::NoRule(place)) => println!(": no rule at place {place}"),
    }
}

/// The automaton that a list is: its states, then rule by rule.
fn show_list(list: List) {
    for state in 0..list.sizes().states as u8 {
        let last = list.is_final(state) == Some(true);
        println!("state {state}{}", if last { ", final" } else { "" });
    }
    for rule in list.rules() {
        print!("symbol {}", rule.symbol);
        for state in rule.states() {
            print!(", child state {state}");
        }
        println!(": state {}", rule.target);
    }
    match list.target(0, &[1]) {
        Some(target) => println!("symbol 0, child state 1: state {target}"),
        None => println!("symbol 0, child state 1: no rule"),
    }
}

fn main() -> Result<(), Refusal> {
    assert!(fits(), "the library has another version");
    let (p, op, ooop) = ([1], [1, 0], [1, 0, 0, 0]);
    let (mut run, told) = Run::start(5, &[1, 0])?;
    show(told);
    judge(&run, &op);
    show(run.offer(&op, true)?);
    judge(&run, &op);
    show(run.answer(false)?);
    judge(&run, &op);
    show(run.offer(&op, true)?);
    show(run.answer(false)?);
    if let Err(refusal) = run.offer(&op, true) {
        println!("refused {}", refusal.number());
    }
    judge(&run, &op);
    show(run.accept()?);
    judge(&run, &ooop);
    judge(&run, &p);
    show(run.look()?);
    let bytes = run.emit()?;
    print!("emitted 0 {}:", bytes.len());
    for byte in &bytes {
        print!(" {byte:02x}");
    }
    println!("\nloaded 0 {}", load(&bytes)?);
    show_list(List::load(&bytes)?);
    Ok(())
}
