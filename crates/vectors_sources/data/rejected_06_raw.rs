let a = r##"b"#;
