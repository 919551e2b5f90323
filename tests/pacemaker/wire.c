#include "wire.h"

#include <crm/crm.h>
#include <crm/common/ipc.h>
#include <crm/common/nvpair.h>
#include <crm/common/xml.h>
#include <crm/lrmd.h>
#include <crm/msg_xml.h>
#include <qb/qbipc_common.h>

/* Of Pacemaker 2.1.5, and in no installed header: struct pcmk__ipc_header_s and PCMK__IPC_VERSION of lib/common/crmcommon_private.h.
   Read there by pcmk__client_data2xml(), written by pcmk__ipc_prepare_iov(), both of lib/common/ipc_server.c. The text after it ends
   with a NUL, which is counted. */
struct header {
    struct qb_ipc_response_header qb;
    uint32_t size_uncompressed, size_compressed; /* of the text; the latter is 0 if it is not compressed */
    uint32_t flags;                              /* enum crm_ipc_flags */
    uint8_t version;
};
enum { HEADER_VERSION = 1 };

xmlNode *wire_read(const void *bytes, size_t size, int32_t *id) {
    const struct header *header = bytes;
    const char *text = (const char *)bytes + sizeof *header;
    if (size < sizeof *header || header->version > HEADER_VERSION || !(header->flags & crm_ipc_client_response))
        return NULL;
    *id = header->qb.id;
    if (header->size_compressed || header->size_uncompressed < 1 || header->size_uncompressed > size - sizeof *header ||
        text[header->size_uncompressed - 1]) {
        crm_err("A request of %zu bytes is compressed or cut, and is passed over", size);
        return NULL;
    }
    return string2xml(text);
}

GBytes *wire_bytes(xmlNode *message, int32_t id, bool event) {
    char *text = dump_xml_unformatted(message);
    struct header header = {.version = HEADER_VERSION, .size_uncompressed = strlen(text) + 1};
    header.qb.id = id;
    header.qb.size = sizeof header + header.size_uncompressed;
    header.flags = event ? crm_ipc_server_event : crm_ipc_flags_none;
    GByteArray *all = g_byte_array_new();
    g_byte_array_append(all, (guint8 *)&header, sizeof header);
    g_byte_array_append(all, (guint8 *)text, header.size_uncompressed);
    free(text);
    if (all->len < crm_ipc_default_buffer_size())
        return g_byte_array_free_to_bytes(all);
    crm_err("A message of %u bytes is too long to be sent without compression", all->len);
    g_byte_array_unref(all);
    return NULL;
}

/* As create_lrmd_reply() of daemons/execd/execd_commands.c. */
xmlNode *wire_reply(int code, int call) {
    xmlNode *xml = create_xml_node(NULL, T_LRMD_REPLY);
    crm_xml_add(xml, F_LRMD_ORIGIN, "bridge");
    crm_xml_add_int(xml, F_LRMD_CALLID, call);
    crm_xml_add_int(xml, F_LRMD_RC, code);
    return xml;
}

/* As send_generic_notify() of daemons/execd/execd_commands.c. */
xmlNode *wire_done(const char *operation, const char *resource, int code, int call) {
    xmlNode *xml = wire_reply(code, call);
    xmlNodeSetName(xml, (const xmlChar *)T_LRMD_NOTIFY);
    crm_xml_add(xml, F_LRMD_OPERATION, operation);
    crm_xml_add(xml, F_LRMD_RSC_ID, resource);
    return xml;
}

/* As send_cmd_complete_notify() of daemons/execd/execd_commands.c: the names in the request are those in the message. */
xmlNode *wire_result(xmlNode *asked, const struct result *result) {
    xmlNode *xml = copy_xml(asked);
    xmlNodeSetName(xml, (const xmlChar *)T_LRMD_NOTIFY);
    crm_xml_add(xml, F_LRMD_ORIGIN, "bridge");
    crm_xml_add(xml, F_LRMD_OPERATION, LRMD_OP_RSC_EXEC);
    crm_xml_add_int(xml, F_LRMD_CALLID, result->call);
    crm_xml_add_int(xml, F_LRMD_EXEC_RC, result->code);
    crm_xml_add_int(xml, F_LRMD_OP_STATUS, result->status);
    crm_xml_add(xml, F_LRMD_RSC_EXIT_REASON, result->reason);
    crm_xml_add_int(xml, F_LRMD_RSC_DELETED, result->deleted);
    crm_xml_add_ll(xml, F_LRMD_RSC_RUN_TIME, result->run_at);
    crm_xml_add_ll(xml, F_LRMD_RSC_RCCHANGE_TIME, result->changed_at);
    crm_xml_add_int(xml, F_LRMD_RSC_EXEC_TIME, result->run_time);
    crm_xml_add_int(xml, F_LRMD_RSC_QUEUE_TIME, result->queue_time);
    return xml;
}
