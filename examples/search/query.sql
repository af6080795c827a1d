SELECT d.title
FROM postings a, postings b, postings c, documents d
WHERE a.term = 'ranked' AND b.term = 'join' AND c.term = 'heap'
    AND a.document = b.document AND b.document = c.document AND c.document = d.document
ORDER BY a.score + b.score + c.score DESC
LIMIT 5
