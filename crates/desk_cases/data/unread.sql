UPDATE cases SET manifest = 5, layouts = 5, declaration = 5;
UPDATE dex SET bytes = 5;
