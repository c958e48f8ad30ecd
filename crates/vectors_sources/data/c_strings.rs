c"" c"é\xff\u{e9}" c"\n\\" c"a"b cr"raw \0" cr#"a"b"#
