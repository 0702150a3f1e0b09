SESSION s
-- the end
