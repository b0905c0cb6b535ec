import pathlib, runpy

runpy.run_path(str(pathlib.Path(__file__).resolve().parents[4] / "examples" / "ledger.py"), run_name="__main__")
