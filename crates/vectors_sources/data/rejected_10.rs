let a = r#crate::b;
