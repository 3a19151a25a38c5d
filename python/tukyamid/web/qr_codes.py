"""Fingerprints as QR codes, which phones compare with those of a business card or another screen."""

from typing import Any


def code(fpr: str) -> dict[str, Any]:
    """The rows of a QR code, as texts of 0 and 1; none if Debian's python3-qrcode isn't installed. The text is what
    programs for phones and sheets for key signing use."""
    text = f"OPENPGP4FPR:{fpr.upper()}"
    try:
        from qrcode import QRCode  # type: ignore[import]
    except ModuleNotFoundError:
        return {"text": text, "rows": [], "missing": "python3-qrcode"}
    made = QRCode(border=4)
    made.add_data(text)
    return {"text": text, "rows": ["".join("01"[bool(cell)] for cell in row) for row in made.get_matrix()]}
