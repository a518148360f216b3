//! Takes a name that nothing refers to out of a section, the later ones moving up.

use sleigh_parse::ast::{BranchDst, Ident, JumpLabel, PcodeExpr, Statement};

use crate::{ident, index, Section};

pub fn drop_name(section: &Section, name: u16) -> Option<Section> {
    let mut used = false;
    let mut less = section.clone();
    each(&mut less, &mut |at| used |= *at == name);
    if used || section.names.len() == 1 {
        return None;
    }
    each(&mut less, &mut |at| *at -= (*at > name) as u16);
    less.names.remove(name as usize);
    Some(less)
}

type Visit<'a> = &'a mut dyn FnMut(&mut u16);

fn each(section: &mut Section, visit: Visit) {
    let s = section;
    for name in [&mut s.inst_start, &mut s.inst_next, &mut s.const_name, &mut s.delay_slot] {
        visit(name);
    }
    s.spaces.iter_mut().for_each(|x| visit(&mut x.name));
    s.registers.iter_mut().for_each(|x| visit(&mut x.name));
    s.bit_ranges.iter_mut().for_each(|x| visit(&mut x.name));
    s.tables.iter_mut().for_each(|x| visit(&mut x.name));
    s.user_ops.iter_mut().for_each(&mut *visit);
    s.others.iter_mut().for_each(&mut *visit);
    s.fields.iter_mut().for_each(|x| visit(&mut x.name));
    s.subtables.iter_mut().for_each(|x| visit(&mut x.name));
    for def in &mut s.macros {
        one(&mut def.name, visit);
        def.params.iter_mut().for_each(|x| one(x, visit));
        def.body.iter_mut().for_each(|x| statement(x, visit));
    }
    s.statements.iter_mut().for_each(|x| statement(x, visit));
}

fn one(name: &mut Ident, visit: Visit) {
    let mut number = index(*name);
    visit(&mut number);
    *name = ident(number);
}

fn statement(item: &mut Statement, visit: Visit) {
    match item {
        Statement::Unimplemented => {}
        Statement::Export { value } => expr(value, visit),
        Statement::Local { name, .. } | Statement::Build { name } => one(name, visit),
        Statement::Label { label } => one(label, visit),
        Statement::LocalAssignment { name, expr: value, .. } => {
            one(name, visit);
            expr(value, visit);
        }
        Statement::Copy { from, to } => [from, to].into_iter().for_each(|x| expr(x, visit)),
        Statement::Store { space, pointer, value, .. } => {
            space.iter_mut().for_each(|x| one(x, visit));
            [pointer, value].into_iter().for_each(|x| expr(x, visit));
        }
        Statement::Call(call) => {
            one(&mut call.name, visit);
            call.args.iter_mut().for_each(|x| expr(x, visit));
        }
        Statement::Branch { dst, .. } => target(dst, visit),
        Statement::CondBranch { cond, dst, .. } => {
            expr(cond, visit);
            target(dst, visit);
        }
    }
}

fn target(dst: &mut BranchDst, visit: Visit) {
    match dst {
        BranchDst::Label(name) => one(name, visit),
        BranchDst::Direct(JumpLabel::Ident(name)) => one(name, visit),
        BranchDst::Indirect(JumpLabel::Ident(name)) => one(name, visit),
        _ => {}
    }
}

fn expr(item: &mut PcodeExpr, visit: Visit) {
    match item {
        PcodeExpr::Integer { .. } => {}
        PcodeExpr::Ident { value } | PcodeExpr::AddressOf { value, .. } => one(value, visit),
        PcodeExpr::Truncate { value, .. } | PcodeExpr::SliceBits { value, .. } => {
            expr(value, visit)
        }
        PcodeExpr::Op { a, b, .. } => [a, b].into_iter().for_each(|x| expr(x, visit)),
        PcodeExpr::Deref { space, pointer, .. } => {
            space.iter_mut().for_each(|x| one(x, visit));
            expr(pointer, visit);
        }
        PcodeExpr::ConstantPoolRef { params } => params.iter_mut().for_each(|x| expr(x, visit)),
        PcodeExpr::Call(call) => {
            one(&mut call.name, visit);
            call.args.iter_mut().for_each(|x| expr(x, visit));
        }
    }
}
