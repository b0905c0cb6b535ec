print("set A1 a\0b\1\tc\nfirm A1")
