import os

os.mkdir('schema.json')
