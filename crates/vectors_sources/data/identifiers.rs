a _ _a A1 r#type r#a é 漢字 αβγ a·b self Self super crate async r #a br cr b c
