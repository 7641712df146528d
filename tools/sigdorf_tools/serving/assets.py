"""The files that the page is made of, as they stand in the folder `page`."""
import pathlib

ASSETS = {path.name: path.read_bytes() for path in sorted(pathlib.Path(__file__).with_name("page").iterdir())}
