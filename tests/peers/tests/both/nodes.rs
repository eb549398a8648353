//! Programs as bytes, node by node.

pub fn node(kind: u8, delay: u8, n: u16) -> Vec<u8> {
    let [low, high] = n.to_le_bytes();
    vec![kind, delay, low, high]
}

pub fn constant(n: u16) -> Vec<u8> {
    node(1, 0, n)
}

pub fn variable(n: u16) -> Vec<u8> {
    node(2, 0, n)
}

pub fn operation(kind: u8, e: Vec<u8>, f: Vec<u8>) -> Vec<u8> {
    [node(kind, 0, 0), e, f].concat()
}

pub fn sum(e: Vec<u8>, f: Vec<u8>) -> Vec<u8> {
    operation(4, e, f)
}

pub fn difference(e: Vec<u8>, f: Vec<u8>) -> Vec<u8> {
    operation(5, e, f)
}

pub fn equal(e: Vec<u8>, f: Vec<u8>) -> Vec<u8> {
    operation(8, e, f)
}

pub fn ok() -> Vec<u8> {
    node(16, 0, 0)
}

pub fn tick(d: u8) -> Vec<u8> {
    node(17, d, 0)
}

pub fn assign(n: u16, e: Vec<u8>, d: u8) -> Vec<u8> {
    [node(18, d, n), e].concat()
}

pub fn sequence(p: Vec<u8>, q: Vec<u8>) -> Vec<u8> {
    [node(19, 0, 0), p, q].concat()
}

pub fn parallel(p: Vec<u8>, q: Vec<u8>) -> Vec<u8> {
    [node(20, 0, 0), p, q].concat()
}

pub fn if_then_else(e: Vec<u8>, d: u8, p: Vec<u8>, q: Vec<u8>) -> Vec<u8> {
    [node(21, d, 0), e, p, q].concat()
}

pub fn while_do(e: Vec<u8>, d: u8, p: Vec<u8>) -> Vec<u8> {
    [node(22, d, 0), e, p].concat()
}

pub fn repeat_until(p: Vec<u8>, e: Vec<u8>, d: u8) -> Vec<u8> {
    [node(23, d, 0), e, p].concat()
}

pub fn element(array: u16, index: Vec<u8>) -> Vec<u8> {
    [node(10, 0, array), index].concat()
}

pub fn assign_element(array: u16, index: Vec<u8>, value: Vec<u8>, d: u8) -> Vec<u8> {
    [node(24, d, array), index, value].concat()
}

pub fn loop_of(d: u8, p: Vec<u8>) -> Vec<u8> {
    [node(25, d, 0), p].concat()
}

pub fn exit() -> Vec<u8> {
    node(26, 0, 0)
}

pub fn call(procedure: u16, d: u8) -> Vec<u8> {
    node(27, d, procedure)
}
