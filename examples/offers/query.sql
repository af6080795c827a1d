SELECT p.name, o.seller, days
FROM products AS p, offers AS o, shipping
WHERE p.id = o.product
    AND o.seller = shipping.seller
    AND p.category = 'camera'
    AND country = 'NO'
ORDER BY rating DESC, price + cost
LIMIT 8
