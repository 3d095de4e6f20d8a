"""Draws one label as PNG, and reads it back."""

import liblabels

symbol = liblabels.symbol("ean13", "400638133393")
print(symbol.text)  # 4006381333931: with the check digit
symbol.save("code.png", scale=4, dpi=300)
print(liblabels.read("code.png"))  # Reading(symbology='ean13', scale=4, turns=0, data=b'4006381333931')
