b"" b"a\xff\x00\n\\\"\'" b"two
lines" b"on\
e" b"s"suffix b"a"é b'a' b'\xff' b'\'' b'"' b'a'u8
