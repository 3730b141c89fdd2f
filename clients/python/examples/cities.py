"""Spreads the cities of examples/cookbook over four shards on this machine, and asks for the three nearest to Munich.

From the top of the repository: PYTHONPATH=clients/python /usr/bin/python3 clients/python/examples/cities.py
"""
import logging

from distributed import Client, LocalCluster
from sand.shards import Region, Shards

if __name__ == "__main__":
    # A worker that ends slowly is no news here.
    quiet = LocalCluster(n_workers=2, dashboard_address=":0", silence_logs=logging.ERROR)
    with quiet as cluster, Client(cluster, direct_to_workers=True) as client:
        with Shards(client, 4) as db:
            db.create("create city (at point, name text, country text)", Region("name", "at"))
            print(db.load_parts("city", ["examples/cookbook/europe.csv"], header=True), "cities")
            db.tell("index city.at")
            with db.rows("fetch (rank city.at from (495707 422407)) 1.country") as nearest:
                for gap, name, country in nearest.take(3):
                    print(gap, name, country)
                print("rows asked of the shards:", nearest.asked)
