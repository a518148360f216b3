//! The functions on the repository's samples.

use mizgalon::{
    check, resolve, resolve_within, Action, Counts, Export, Hint, Local, Operation, Refusal,
    Section, Temporary, Value,
};

fn file(name: &str) -> Vec<u8> {
    let path = format!("{}/../../samples/{name}.section", env!("CARGO_MANIFEST_DIR"));
    std::fs::read(&path).unwrap_or_else(|error| panic!("{path}: {error}"))
}

fn accepted(name: &str) -> Section {
    resolve(&file(name)).unwrap()
}

fn refused(name: &str) -> Refusal {
    resolve(&file(name)).unwrap_err()
}

fn value(local: Local, size: u16) -> Value {
    Value { local, offset: 0, size: Some(size) }
}

fn operations(section: &Section) -> Vec<Operation> {
    let each = section.actions.iter().filter_map(|action| match action {
        Action::Op { operation, .. } => Some(*operation),
        _ => None,
    });
    each.collect()
}

#[test]
fn an_empty_section_has_no_actions() {
    let section = accepted("empty");
    assert_eq!((section.statements, section.points, section.labels), (0, 0, 0));
    assert!(section.actions.is_empty() && section.temporaries.is_empty());
    assert_eq!(section.export, None);
    assert!(section.passes(0, 8));
}

#[test]
fn subtables_that_are_not_built_are_built_first() {
    let section = accepted("builds");
    assert_eq!(section.actions, [Action::Build(1), Action::Build(0)]);
    assert!(section.passes(2, 8));
    assert!(!section.passes(3, 8));
}

#[test]
fn a_greater_operator_swaps_its_operands() {
    let section = accepted("greater");
    let inputs = vec![value(Local::Register(1), 4), value(Local::Register(0), 4)];
    let output = Some(value(Local::Temporary(0), 1));
    let less = Action::Op { operation: Operation::IntLess, inputs, output };
    assert_eq!(section.actions, [less]);
    assert_eq!(section.temporaries, [Temporary { name: Some(8), size: Some(1) }]);
}

#[test]
fn constants_are_sliced_when_they_are_resolved() {
    let export = accepted("constant-slice").export;
    assert_eq!(export, Some(Export::Value(value(Local::Constant(0xBC), 1))));
}

#[test]
fn bits_are_written_by_five_operations() {
    let section = accepted("bit-write");
    use Operation::{IntAnd, IntLeft, IntOr, ZeroExtend};
    assert_eq!(operations(&section), [IntAnd, ZeroExtend, IntAnd, IntLeft, IntOr]);
    assert_eq!((section.temporaries.len(), section.points), (2, 1));
}

#[test]
fn memory_is_read_and_written() {
    let section = accepted("memory");
    let register = |id, size| value(Local::Register(id), size);
    let unsized_register = |id| Value { size: None, ..register(id, 0) };
    let load =
        Action::LoadRegister { pointer: unsized_register(0), output: register(1, 4), size: 4 };
    let store =
        Action::StoreRegister { pointer: unsized_register(0), value: register(1, 4), size: 4 };
    assert_eq!(section.actions[3..5], [load, store]);
    assert!(matches!(section.actions[5], Action::AddressOf { base: Local::Register(0), .. }));
    assert_eq!(section.export, Some(Export::Ram(register(2, 8), 4)));
}

#[test]
fn jumps_have_their_hints_and_labels() {
    let section = accepted("jumps");
    use Operation::{Branch, PcodeBranch, PcodeLabel};
    let jumps: Vec<_> = operations(&section);
    assert_eq!(jumps[0], PcodeLabel(0));
    assert_eq!(jumps[3..], [PcodeBranch(0), Branch(Hint::Call), Branch(Hint::Return)]);
    assert_eq!(section.actions[6], Action::DelaySlot);
    assert_eq!(section.labels, 1);
}

#[test]
fn a_list_that_fails_the_premise_does_not_pass() {
    assert!(!accepted("five-copies").passes(0, 8));
}

#[test]
fn refusals_say_where_and_why() {
    let twice = refused("label-twice");
    assert_eq!(twice, Refusal { number: 27, ordinal: Some(1), errors: 0 });
    assert_eq!(twice.to_string(), "refused 27 at statement 1: a label is placed twice");
    let sizes = refused("sizes-differ");
    assert_eq!(sizes.to_string(), "refused 51 at statement 1: sizes do not fit (3 errors)");
    let empty = resolve(&[]).unwrap_err();
    assert_eq!(
        empty.to_string(),
        "refused 1: the file is empty, above 65,536 bytes or not whole blocks of 512"
    );
    let error: Box<dyn std::error::Error> = Box::new(empty);
    assert!(error.source().is_none());
}

#[test]
fn a_damaged_block_is_refused() {
    let mut bytes = file("greater");
    bytes[100] ^= 1;
    assert_eq!(resolve(&bytes).unwrap_err().number, 2);
}

#[test]
fn room_is_made_where_it_is_needed() {
    let bytes = file("floats");
    let twelve = Refusal { number: 12, ordinal: Some(5), errors: 0 };
    assert_eq!(resolve_within(&bytes, 10, 512), Err(twelve));
    let thirteen = resolve_within(&bytes, 11, 5).unwrap_err();
    assert_eq!(thirteen.number, 13);
    assert_eq!(resolve_within(&bytes, 11, 6), resolve(&bytes));
}

/// A section of 600 assignments, more than the first list has room for.
#[test]
fn a_long_list_grows() {
    let long = long_section(600);
    assert_eq!(resolve_within(&long, 128, 512).unwrap_err().number, 12);
    let section = resolve(&long).unwrap();
    assert_eq!((section.statements, section.actions.len()), (600, 600));
    assert!(section.passes(0, 8));
}

/// One register of four bytes, and so many times `r = 1`.
fn long_section(statements: u16) -> Vec<u8> {
    let mut stream = vec![];
    let header = [0, 1, 0, 1, 0, 0, 0, 0, 0, 0, 0, statements, 65_535, 0, 0, 0, 0];
    header.iter().for_each(|number: &u16| stream.extend(number.to_le_bytes()));
    stream.extend(*b"\x01r");
    stream.extend([0, 0, 4, 0]);
    for _ in 0..statements {
        stream.extend([5, 1, 1, 0, 0, 0, 0, 0, 0, 0]);
        stream.extend([0, 0, 0]);
    }
    let mut file = vec![];
    for (number, part) in stream.chunks(510).enumerate() {
        let mut block = part.to_vec();
        block.resize(510, 0);
        let sum: usize = block.iter().map(|byte| *byte as usize).sum();
        block.extend(((sum + number) as u16).to_le_bytes());
        file.extend(block);
    }
    file
}

#[test]
fn any_list_can_be_checked() {
    let counts = Counts { actions: 1, temporaries: 0, subtables: 0, pointer_size: 8 };
    assert!(!check(&[], counts));
    assert!(check(&[], Counts { actions: 0, ..counts }));
    assert!(!check(&[1], Counts { actions: 0, ..counts }));
    assert!(!check(&[7; 24], counts));
    assert!(!check(&[0; 24], Counts { actions: u64::MAX, ..counts }));
    let mut words = accepted("greater").words().to_vec();
    let counts = Counts { temporaries: 1, ..counts };
    assert!(check(&words, counts));
    words[5] += 1 << 24;
    assert!(!check(&words, counts));
}
