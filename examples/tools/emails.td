// The type of the column Mail of loans.csv.
TYPE EMAIL POSSREP {E CHAR CONSTRAINT E <> ''};
