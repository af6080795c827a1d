SELECT "a hotel".city, "a hotel".hotel
FROM hotels AS "a hotel"
WHERE "a hotel".hotel = 'Grand, old wing' AND stars = 3
