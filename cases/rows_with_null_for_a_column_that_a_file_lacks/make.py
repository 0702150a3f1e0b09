import tables


def wider(metadata):
    metadata["last-column-id"] = 3
    metadata["schemas"][0]["fields"].insert(0, {"id": 3, "name": "more", "required": False, "type": "long"})


tables.change("t/metadata/v1.metadata.json", wider)
