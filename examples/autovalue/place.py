import pathlib, shutil
from dinxobhe import List, Reader, Row, TEXT, U32

record = Reader(pathlib.Path("out/record").read_bytes(), at=6)  # behind the letters APTR and the format
for path, store, length in List(Row(TEXT, U32, U32)).read(record):
    copy = pathlib.Path("files", path)
    copy.parent.mkdir(parents=True, exist_ok=True)
    shutil.copy(pathlib.Path("out/store", str(store)), copy)
