"""The rules of link descriptions, each written from its text: reading, checking and laying out."""
