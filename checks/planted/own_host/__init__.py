"""A small issuer's host, written from docs/use/report.md, section 7, docs/proof/formats.md, sections 4, 6, 7 and 8, and
docs/proof/profile.md, *The issuer*, and from nothing else; and faults that can be planted in it."""
