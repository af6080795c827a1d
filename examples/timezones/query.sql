SELECT a.utc, a.local, q.zone, b.local, r.zone, c.local
FROM zones p, zones q, zones r, hours a, hours b, hours c
WHERE p.country = 'NO' AND q.country = 'AU' AND r.country = 'US'
    AND p.zone = a.zone AND q.zone = b.zone AND r.zone = c.zone
    AND a.utc = b.utc AND b.utc = c.utc
ORDER BY a.strain + b.strain + c.strain
LIMIT 12
