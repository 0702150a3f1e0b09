import os

os.remove('t/metadata/snap-1.avro')
