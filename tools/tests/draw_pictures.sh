#!/bin/sh
# Makes the files of docs/pictures, but for window*.png (window_pictures.py), in the folder in which it runs: a copy of
# this repository in which the commands of designs/README.md have run.
set -e

draw() {
    python3 -m liblabels "$1" --digits --scale 3 "$2" | pngtopnm |
        pnmpad -white -top 15 -bottom 6 | pnmtopng -quiet -compression 9 > "$1.png"
}
draw ean13 400638133393
draw ean8 7351353
draw upca 03600029145
draw code128 PJJ123C
python3 -m liblabels qr --scale 8 'HELLO WORLD' > qr.png
status=0
label-table --code EAN --digits lost-zeros --title Artikel --price Preis --copies Stück examples/shop.csv > shop.lines \
    2> left-out.txt || status=$?
test $status = 1  # two rows are skipped
label-print --stock 'Avery L7160' --to png --dpi 150 --only 2-5,7-8,10-12 shop.lines > sheet.png
label-print --paper 60x40 --to png --dpi 203 --only 2 --each 'one/%d.png' shop.lines
mv one/1.png thermal.png
tools/tests/layouts.py .
tools/tests/settings.py .
mv rack/1.png design-rack.png
label-table --code Pallet --symbology code128 --title Number --text From --text Article --text Quantity --text Batch \
    --text 'Best before' examples/pallets.csv > pallets.lines
label-print --design designs/pallet-105x148.svg --dpi 203 --to png --each 'pallet/%d.png' pallets.lines
mv pallet/1.png design-pallet.png
label-print --design designs/shelf-60x40.svg --to png --dpi 203 --only 2 --each 'own/%d.png' shop.lines
mv own/1.png design-shelf.png
label-table --code Ticket --symbology qr --title Name --price Price --text Block --text Row --text Seat --text Event \
    examples/seats.csv > seats.lines
label-print --design designs/ticket-210x148.svg --to png --dpi 203 --only 2 seats.lines > design-ticket.png
cat > jar.lines <<'LINES'
#{"title":"Bärlauchpesto mit Walnüssen","text":{"Filled":"3.11.2026","Text":"Hofladen Huber, kühl lagern"}}
qr HONEY-7
LINES
cat > receipt.lines <<'LINES'
#{"title":"Zoë","price":"48,00 €","text":{"Seat":"4"}}
qr T-00000003
LINES
cat > address.lines <<'LINES'
#{"title":"Dr. Ángela Müller","text":["Hauptstraße 12a","12345 Köln"]}
qr C-1
LINES
for one in jar-38x21 receipt-72x60 address-88x25; do
    name=${one%-*}
    label-print --design "designs/$one.svg" --to png --dpi 203 "$name.lines" > "design-$name.png"
done
