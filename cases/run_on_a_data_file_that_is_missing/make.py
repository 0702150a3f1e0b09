import os

os.remove('t/data/a.avro')
