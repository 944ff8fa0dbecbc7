-- The tables, and the rows of those that a migration changes.
SELECT rowid, type, name, tbl_name, sql FROM sqlite_schema;
SELECT 'meta:';
SELECT name, value FROM meta;
SELECT 'versions:';
SELECT package, version, published, manifest, deprecated, archive FROM versions ORDER BY package, version;
SELECT 'needs:';
SELECT package, version, target FROM needs ORDER BY package, version, target;
SELECT 'tags:';
SELECT package, tag, version FROM tags ORDER BY package, tag;
