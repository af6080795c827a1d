SELECT dish.words, dish.definition, broader.words
FROM postings a, postings b, meanings dish, kinds, meanings broader
WHERE a.word = 'cheese' AND b.word = 'sauce'
    AND a.meaning = dish.meaning AND b.meaning = dish.meaning
    AND kinds.meaning = dish.meaning AND kinds.kind = broader.meaning
ORDER BY a.score + b.score DESC
LIMIT 10
