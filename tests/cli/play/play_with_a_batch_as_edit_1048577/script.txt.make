print("clear A1\n" * 1_048_575 + "batch\nclear A1\nend\nbatch\nclear A1\nend")
