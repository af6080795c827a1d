SELECT p.name, q.name, r.name
FROM legs a, legs b, legs c, legs d, airports p, airports q, airports r
WHERE a.origin = 'JNU' AND d.destination = 'ANC'
    AND a.destination = p.code AND p.code = b.origin
    AND b.destination = q.code AND q.code = c.origin
    AND c.destination = r.code AND r.code = d.origin
ORDER BY a.metres + b.metres + c.metres + d.metres
LIMIT 10
