#!/usr/bin/env bash
# How the maps in this folder were made, once: by GDAL's ogr2ogr, geopandas, shapely and SpatiaLite (Debian's gdal-bin,
# python3-geopandas, python3-shapely, spatialite-bin). Those named by-hand-* were written by hand. Not run by any test.
#
#     tests/maps/make.sh FOLDER    writes them into FOLDER
set -eu
cd "$1"

# Outlines drawn for this: a harbour with a hole, a group of islands, one that is cut at 180 degrees, one over the pole.
cat > in.csv << 'CSV'
id,name,WKT
7,Λιμάνι,"POLYGON Z ((23.6 37.92 3,23.66 37.92 3,23.66 37.94 3,23.62 37.94 3,23.62 37.97 3,23.6 37.97 3,23.6 37.92 3),(23.605 37.925 3,23.615 37.925 3,23.615 37.935 3,23.605 37.935 3,23.605 37.925 3))"
8,Νησιά,"MULTIPOLYGON (((25.3 36.3,25.5 36.3,25.5 36.5,25.3 36.5,25.3 36.3),(25.36 36.36,25.44 36.36,25.44 36.44,25.36 36.44,25.36 36.36)),((25.38 36.39,25.42 36.38,25.41 36.42,25.38 36.39)),((25.55 36.35,25.6 36.33,25.58 36.4,25.55 36.35)))"
9,Date line,"MULTIPOLYGON (((179.9 -16.9,180 -16.95,180 -16.5,179.85 -16.6,179.9 -16.9)),((-180 -16.95,-179.8 -16.8,-179.9 -16.55,-180 -16.5,-180 -16.95)))"
CSV
cat > third.csv << 'CSV'
id,name,WKT
1,thirds,"POLYGON ((10.3333333333333 54.1,10.6666666666667 54.1,10.5 54.3333333333333,10.3333333333333 54.1))"
CSV

read_csv=(-oo GEOM_POSSIBLE_NAMES=WKT -oo KEEP_GEOM_COLUMNS=NO -s_srs EPSG:4326)
as_it_is=(-t_srs EPSG:4326)
ogr2ogr -f GeoJSON gdal.geojson in.csv "${read_csv[@]}" "${as_it_is[@]}"
ogr2ogr -f GeoJSON -lco RFC7946=YES -lco WRITE_BBOX=YES gdal-rfc7946.geojson in.csv "${read_csv[@]}" "${as_it_is[@]}"
ogr2ogr -f GeoJSON -lco RFC7946=NO -lco COORDINATE_PRECISION=15 gdal-15-decimals.geojson third.csv "${read_csv[@]}" "${as_it_is[@]}"
ogr2ogr -f GeoJSON -lco ID_FIELD=id -where "id='7'" gdal-id.geojson in.csv "${read_csv[@]}" "${as_it_is[@]}"
ogr2ogr -f GeoJSON -dim XY -nlt GEOMETRYCOLLECTION gdal-collection.geojson in.csv "${read_csv[@]}" "${as_it_is[@]}"
ogr2ogr -f GeoJSON -t_srs EPSG:3857 -where "id='7'" gdal-web-mercator.geojson in.csv "${read_csv[@]}"
ogr2ogr -f GeoJSON -t_srs EPSG:2100 -where "id='7'" gdal-greek-grid.geojson in.csv "${read_csv[@]}"
ogr2ogr -f GeoJSON gdal-wrapped.geojson in.csv "${read_csv[@]}" "${as_it_is[@]}" -where "id='9'" -wrapdateline

/usr/bin/python3 << 'PYTHON'
import json
import geopandas
import shapely.geometry
import shapely.wkt
frame = geopandas.read_file("gdal.geojson")
frame.to_file("geopandas.geojson", driver="GeoJSON")
open("geopandas-to-json.geojson", "w").write(frame.to_json(na="drop", show_bbox=True))
frame.to_crs(3035).to_file("geopandas-laea.geojson", driver="GeoJSON")
ring = shapely.geometry.Point(18.06, 59.33).buffer(0.05, resolution=16)
json.dump(shapely.geometry.mapping(ring), open("shapely-buffer.geojson", "w"))
cap = shapely.geometry.Polygon([(-180, -90), (180, -90), (180, -85), (60, -84.5), (-60, -86), (-180, -85)])
json.dump({"type": "Feature", "properties": {}, "geometry": shapely.geometry.mapping(cap)},
          open("shapely-pole.geojson", "w"))
box = shapely.geometry.box(-12, 40, 8, 52)
json.dump(shapely.geometry.mapping(box), open("shapely-box.geojson", "w"))
PYTHON

{
    echo "SELECT InitSpatialMetaData(1);"
    echo "SELECT AsGeoJSON(GeomFromText('POLYGON((5.1 60.3, 5.4 60.3, 5.4 60.45, 5.1 60.3))', 4326));"
    echo "SELECT AsGeoJSON(GeomFromText('POLYGON((5.1 60.3, 5.4 60.3, 5.4 60.45, 5.1 60.3))', 4326), 15, 5);"
} | spatialite -silent :memory: 2> spatialite.log | grep '^{' > spatialite.txt
sed -n 1p spatialite.txt > spatialite.geojson
sed -n 2p spatialite.txt > spatialite-crs-bbox.geojson
rm -f in.csv third.csv spatialite.txt spatialite.log
