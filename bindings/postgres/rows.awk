# awk -f rows.awk -v book=NAME FILE: the postings and refunds of a file for rerun that has one book, in codes and texts, as rows that COPY reads:
# the book, its card, the place, the kind, the amount.
BEGIN { OFS = "\t"; card = 1 }
$1 == "card" { card++ }
$1 == "post" || $1 == "refund" { print book, card, ++place, $1, $3 }
