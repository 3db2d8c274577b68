-- Gives Virtuoso the path /read, which answers queries as /sparql does, by a user who can't change triples:
--
--     isql-vt 1111 dba PASSWORD mirror/virtuoso-read.sql
--
-- Tried with Virtuoso 7.2.5. By bif:exec, readers can still make tables and procedures of their own, and start a checkpoint.
DB.DBA.USER_CREATE ('reader', uuid());
GRANT SPARQL_SELECT TO "reader";
CREATE PROCEDURE DB.DBA.READ_ONLY (IN realm VARCHAR) { connection_set ('SPARQLUserId', 'reader'); RETURN 1; };
DB.DBA.VHOST_DEFINE (lpath=>'/read', ppath=>'/!sparql/', is_dav=>1, vsp_user=>'dba', auth_fn=>'DB.DBA.READ_ONLY', realm=>'SPARQL', sec=>'basic', opts=>vector('noinherit', 1));
