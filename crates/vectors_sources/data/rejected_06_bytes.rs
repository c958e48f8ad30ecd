let a = b"é";
