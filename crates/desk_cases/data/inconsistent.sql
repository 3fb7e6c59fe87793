UPDATE cases SET manifest = 5 WHERE number = 5;
UPDATE entries SET outcome = 'odd' WHERE number = 1;
