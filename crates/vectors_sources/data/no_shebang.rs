#! // a comment
  /* and another */ [allow(unused)]
fn main() {}
