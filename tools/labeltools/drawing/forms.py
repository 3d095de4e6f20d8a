"""The forms in which labels go out."""

from dataclasses import dataclass


@dataclass(frozen=True)
class Form:
    """A form of output: whether it is a drawing (else dots), whether each label is a page,
    and how a file of it begins, if others are added to it.
    """

    name: str
    is_drawn: bool = False
    is_roll: bool = False
    begin: bytes = b""


PDF = Form("pdf", is_drawn=True)
PNG = Form("png")
PBM = Form("pbm")
ZPL = Form("zpl", is_roll=True, begin=b"^XA")
ESCPOS = Form("escpos", is_roll=True, begin=b"\x1b@")
FORMS = {form.name: form for form in (PDF, PNG, PBM, ZPL, ESCPOS)}
