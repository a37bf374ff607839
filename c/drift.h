/*
 * DRIFT for the radio firmware: a frame checked, read and written.
 * DRIFT for firmware and hosts: one post, run singly on a lent record.
 * DRIFT for a host: a yard, run by a script.
 * DRIFT for the charging desk: a log written as a CSV file and read back.
 *
 * Link with the archive of what is used, from target/staticlib:
 *
 *   drift_frame_...      libframe.a       made by `tools/archives frame`
 *   drift_post_...       liblent_post.a   made by `tools/archives lent_post`
 *   drift_run_script     libscript.a      made by `tools/archives script`
 *   drift_script_state   the same
 *   drift_csv_...        libcsv.a         made by `tools/archives csv`
 *
 * libframe.a calls no other library, the others only memcpy and memset, which
 * compiled C may call anyway. The headers are for C11 and C++17, and later ones.
 */
#ifndef DRIFT_H
#define DRIFT_H

#include "drift_answer.h"
#include "drift_csv.h"
#include "drift_frame.h"
#include "drift_post.h"
#include "drift_script.h"

#endif
