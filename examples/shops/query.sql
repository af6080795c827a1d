SELECT s.seller, p.name, price, cost
FROM products AS p, offers AS o, shipping AS s
WHERE p.id = o.product
    AND o.seller = s.seller
    AND p.category = 'camera'
    AND s.country = 'NO'
ORDER BY price + cost
