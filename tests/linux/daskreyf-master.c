// SPDX-License-Identifier: GPL-2.0
/*
 * An I3C master controller whose bus is the Daskreyf engine: each operation
 * of the I3C core becomes a line to `i3cbus drive` on the host, through two
 * FIFOs, and the answer to it.  User-Mode Linux only.  The protocol is that
 * of docs/DRIVING.md.
 */
#include <linux/ctype.h>
#include <linux/i2c.h>
#include <linux/i3c/master.h>
#include <linux/module.h>
#include <linux/mutex.h>
#include <linux/of.h>
#include <linux/platform_device.h>
#include <linux/slab.h>
#include <asm/unaligned.h>
#include <os.h>

#define LINE		256	/* what the engine reads at most */
#define ANSWER		4096	/* a line of an answer; `symbols` prints long ones */
#define REASON		32	/* why a line was refused */
#define REGISTERS	16	/* what `write` takes at most */
#define ROUNDS		64	/* of an assignment, at most */
#define DUES		64	/* interrupts that the core hasn't got yet, at most */

static char *to_path = "to", *from_path = "from";
module_param_named(to, to_path, charp, 0444);
module_param_named(from, from_path, charp, 0444);
static bool trace;		/* log each line and each answer */
module_param(trace, bool, 0644);
static bool naive;		/* let the core add returning devices again */
module_param(naive, bool, 0644);
/*
 * The engine is `drive --every`: each binding of the bus is one order of a
 * scene.  Then one line follows another by the answers alone, and none comes
 * from a work queue while another thread sends.
 */
static bool every;
module_param(every, bool, 0444);
static bool over;		/* every: no order of the scene is left */
module_param(over, bool, 0444);

/* The engine outlives an unbind, as hardware would: hence not in dk_master. */
static int to_fd = -1, from_fd = -1;
static unsigned long sent;	/* lines */
static u8 hub;			/* the main controller's address, once there is a bus */
static unsigned int delivered;	/* entries of the engine's log that were handled */
static bool asking;		/* the next frame would meet a request */
static char in[1024];
static int in_len, in_pos;

/* An interrupt that the core hasn't got yet. */
struct dk_due {
	struct i3c_dev_desc *desc;
	struct i3c_ibi_slot *slot;
};

struct dk_master {
	struct i3c_master_controller base;
	struct device *dev;
	struct mutex lock;	/* a line and its answer; devs */
	char line[ANSWER];	/* of an answer, the one that was read last */
	char answer[ANSWER];	/* the last one that the line itself printed */
	char refused[REASON];	/* why the line was refused; empty if it was done */
	bool declined;		/* what the next frame would meet was turned down */
	bool silent;		/* this line is followed by no `serve` */
	bool held;		/* requests wait: the core adds devices */
	bool leaving;		/* no request is served any more */
	const char *policy;	/* the kinds of requests that are accepted otherwise */
	struct i3c_dev_desc *devs[128];
	struct work_struct join, serve;
	atomic_t handled;	/* interrupts whose handlers haven't ended */
	struct dk_due due[DUES];	/* every: what dk_settle() gives to the core */
	int dues;
	bool joined;		/* every: dk_settle() is to assign addresses */
	char shown[PAGE_SIZE];	/* the answer to the last line of `sensor` */
};

/* What is done with a line that the engine printed for the line itself. */
typedef void dk_line_fn(struct dk_master *m, void *data);

struct dk_dev {
	struct i3c_generic_ibi_pool *pool;
};

static struct dk_master *to_dk(struct i3c_master_controller *base)
{
	return container_of(base, struct dk_master, base);
}

/* Lines */

/* Reads the next line of an answer. */
static int dk_next(struct dk_master *m)
{
	unsigned int n = 0;
	int got;

	for (;;) {
		while (in_pos < in_len) {
			char c = in[in_pos++];

			if (c == '\n') {
				m->line[n] = 0;
				if (trace)
					pr_info("daskreyf < %s\n", m->line);
				return 0;
			}
			if (n < ANSWER - 1)
				m->line[n++] = c;
		}
		got = os_read_file(from_fd, in, sizeof(in));
		if (got == -EINTR)
			continue;
		if (got <= 0) {
			dev_err(m->dev, "the engine is gone (%d)\n", got);
			return -EPIPE;
		}
		in_len = got;
		in_pos = 0;
	}
}

/* Sends a line, behind which it puts the line feed. */
static int dk_put(struct dk_master *m, const char *fmt, va_list args)
{
	char line[LINE + 1];
	int len, done, ret;

	len = vscnprintf(line, sizeof(line) - 1, fmt, args);
	if (trace)
		pr_info("daskreyf > %s\n", line);
	line[len++] = '\n';
	for (done = 0; done < len; done += ret) {
		ret = os_write_file(to_fd, line + done, len - done);
		if (ret == -EINTR)
			ret = 0;
		else if (ret <= 0)
			return -EPIPE;
	}
	sent++;
	return 0;
}

static bool begins(const char *line, const char *word)
{
	return !strncmp(line, word, strlen(word));
}

/* Is this the last line of the answer?  Then it says what the line came to. */
static bool dk_last(struct dk_master *m)
{
	char end[REASON];
	int len;

	snprintf(end, sizeof(end), "ok %lu", sent);
	if (!strcmp(m->line, end))
		return true;
	len = snprintf(end, sizeof(end), "refused %lu ", sent);
	if (!begins(m->line, end) || !isupper(m->line[len]))
		return false;
	strscpy(m->refused, m->line + len, sizeof(m->refused));
	return true;
}

static int dk_error(struct dk_master *m)
{
	if (!m->refused[0])
		return 0;
	if (begins(m->refused, "NoAnswer"))
		return -ENXIO;
	if (begins(m->refused, "TooLong"))
		return -EMSGSIZE;
	if (begins(m->refused, "BadLine"))
		return -EOPNOTSUPP;
	return -EIO;
}

/* Is it a request that the frame served, but for an interrupt? */
static bool dk_served(struct dk_master *m)
{
	if (begins(m->line, "joining")) {
		if (every)
			m->joined = true;
		else if (!m->leaving)
			queue_work(m->base.wq, &m->join);
	} else if (begins(m->line, "turned down")) {
		m->declined = true;
	} else if (!begins(m->line, "recorded ") && !begins(m->line, "torn") &&
		   !begins(m->line, "wants role ")) {
		return false;
	}
	return true;
}

/* Gives the core an interrupt, or with `every` keeps it for dk_settle(). */
static void dk_give(struct dk_master *m, struct i3c_dev_desc *desc,
		    struct i3c_ibi_slot *slot)
{
	atomic_inc(&m->handled);
	if (!every)
		i3c_master_queue_ibi(desc, slot);
	else if (!WARN_ON(m->dues == DUES))
		m->due[m->dues++] = (struct dk_due){ desc, slot };
}

/* Is it a new entry of the engine's log?  Then the core gets the interrupt. */
static bool dk_recorded(struct dk_master *m)
{
	struct i3c_dev_desc *desc;
	struct i3c_ibi_slot *slot;
	struct dk_dev *data;
	unsigned int k;
	char byte[3];
	u8 addr, value;

	if (sscanf(m->line, "record %u slot %*u raise %*u at %2hhx byte %2s",
		   &k, &addr, byte) != 3 || k <= delivered)
		return false;
	delivered = k;
	desc = m->devs[addr & 0x7f];
	data = desc ? i3c_dev_get_master_data(desc) : NULL;
	slot = data && data->pool ? i3c_generic_ibi_get_free_slot(data->pool) : NULL;
	if (!slot) {
		dev_warn(m->dev, "an interrupt of %02x, but no slot\n", addr);
		return true;
	}
	slot->len = 0;
	if (slot->data && !kstrtou8(byte, 16, &value)) {
		*(u8 *)slot->data = value;
		slot->len = 1;
	}
	dk_give(m, desc, slot);
	return true;
}

/* Does it say who asks now?  The devices here aren't called `asking`. */
static bool dk_asks(struct dk_master *m)
{
	if (strcmp(m->line, "asking") && !begins(m->line, "asking "))
		return false;
	WRITE_ONCE(asking, m->line[strlen("asking")] == ' ');
	m->declined = false;
	return true;
}

/*
 * May a `serve` be sent?  It waits for handlers, so that slots don't run out:
 * once the engine has accepted an interrupt it is too late to turn it down, and
 * `policy` knows kinds, not devices.
 */
static bool dk_may_serve(struct dk_master *m)
{
	return READ_ONCE(asking) && !m->declined && !m->held && !m->leaving &&
		!atomic_read(&m->handled);
}

/* What a controller does when a device pulls SDA low. */
static void dk_wake(struct dk_master *m)
{
	if (!every && dk_may_serve(m))
		queue_work(m->base.wq, &m->serve);
}

static int dk_receive(struct dk_master *m, dk_line_fn *own, void *data)
{
	m->answer[0] = m->refused[0] = 0;
	for (;;) {
		int ret = dk_next(m);

		if (ret)
			return ret;
		if (dk_last(m))
			return dk_error(m);
		if (dk_recorded(m) || dk_asks(m) || dk_served(m))
			continue;
		strscpy(m->answer, m->line, sizeof(m->answer));
		if (own)
			own(m, data);
	}
}

/* Sends a line and reads its answer.  The caller holds the lock. */
static int __printf(4, 5) dk_exchange(struct dk_master *m, dk_line_fn *own, void *data,
				      const char *fmt, ...)
{
	va_list args;
	int ret;

	va_start(args, fmt);
	ret = dk_put(m, fmt, args);
	va_end(args);
	ret = ret ?: dk_receive(m, own, data);
	if (!m->silent)
		dk_wake(m);
	return ret;
}

/* A line of whose answer only the last printed line is looked at. */
#define dk_do(m, ...) dk_exchange(m, NULL, NULL, __VA_ARGS__)

static void dk_serve(struct work_struct *work)
{
	struct dk_master *m = container_of(work, struct dk_master, serve);

	mutex_lock(&m->lock);
	if (dk_may_serve(m))
		dk_do(m, "serve");
	mutex_unlock(&m->lock);
}

/*
 * While the core adds devices, the engine accepts no request.  That takes many
 * frames, of which each could serve an interrupt, and no handler ends before:
 * handlers wait for the lock of the bus, and the slots would run out.
 */
static int dk_hold(struct dk_master *m, bool on)
{
	m->held = on;
	m->declined = false;
	return dk_do(m, "policy %s", on ? "none" : m->policy);
}

/* Addresses */

struct dk_news {
	u64 pid[ROUNDS];
	u8 addr[ROUNDS];
	int count;
};

/* Notes the device that a round of `daa` gave an address to. */
static void dk_note(struct dk_master *m, void *data)
{
	struct dk_news *news = data;
	u64 pid;
	u8 addr;

	if (news->count == ROUNDS ||
	    sscanf(m->line, "assigned %2hhx %12llx", &addr, &pid) != 2)
		return;
	news->pid[news->count] = pid;
	news->addr[news->count++] = addr & 0x7f;
}

/*
 * The engine holds an address for its device, so that one that comes back is
 * where it was.  The core has it there already, and would answer -EBUSY: only
 * its events are to be set.
 */
static bool dk_is_back(struct dk_master *m, u8 addr, u64 pid)
{
	struct i3c_dev_desc *old = m->devs[addr];

	if (!old || old->info.pid != pid || naive)
		return false;
	dev_info(m->dev, "%llx is back at %02x\n", old->info.pid, addr);
	i3c_master_disec_locked(&m->base, addr, I3C_CCC_EVENT_SIR | I3C_CCC_EVENT_MR);
	if (old->ibi && old->ibi->enabled)
		i3c_master_enec_locked(&m->base, addr, I3C_CCC_EVENT_SIR);
	return true;
}

/* ENTDAA, round by round: devices come and go between them. */
static int dk_rounds(struct dk_master *m, struct dk_news *news)
{
	int ret = dk_do(m, "open");

	if (ret)
		return ret;
	do
		ret = dk_exchange(m, dk_note, news, "round");
	while (!ret && strcmp(m->answer, "done"));
	return dk_do(m, "end") ?: ret;
}

static int dk_do_daa(struct i3c_master_controller *base)
{
	struct dk_master *m = to_dk(base);
	struct dk_news news = { };
	int i, ret;

	mutex_lock(&m->lock);
	ret = dk_hold(m, true) ?: dk_rounds(m, &news);
	mutex_unlock(&m->lock);

	for (i = 0; i < news.count; i++)
		if (!dk_is_back(m, news.addr[i], news.pid[i]))
			i3c_master_add_i3c_dev_locked(base, news.addr[i]);
	if (!ret && news.count)
		ret = i3c_master_defslvs_locked(base);

	mutex_lock(&m->lock);
	ret = dk_hold(m, false) ?: ret;
	mutex_unlock(&m->lock);
	return ret;
}

static void dk_join(struct work_struct *work)
{
	struct dk_master *m = container_of(work, struct dk_master, join);

	i3c_master_do_daa(&m->base);
}

static int dk_attach_i3c_dev(struct i3c_dev_desc *dev)
{
	struct dk_master *m = to_dk(i3c_dev_get_master(dev));
	struct dk_dev *data = kzalloc(sizeof(*data), GFP_KERNEL);

	if (!data)
		return -ENOMEM;
	i3c_dev_set_master_data(dev, data);
	mutex_lock(&m->lock);
	m->devs[dev->info.dyn_addr] = dev;	/* or [0] while it has none */
	mutex_unlock(&m->lock);
	return 0;
}

static int dk_reattach_i3c_dev(struct i3c_dev_desc *dev, u8 old)
{
	struct dk_master *m = to_dk(i3c_dev_get_master(dev));

	mutex_lock(&m->lock);
	m->devs[old] = NULL;
	m->devs[dev->info.dyn_addr] = dev;
	mutex_unlock(&m->lock);
	return 0;
}

static void dk_detach_i3c_dev(struct i3c_dev_desc *dev)
{
	struct dk_master *m = to_dk(i3c_dev_get_master(dev));

	mutex_lock(&m->lock);
	if (m->devs[dev->info.dyn_addr] == dev)
		m->devs[dev->info.dyn_addr] = NULL;
	mutex_unlock(&m->lock);
	kfree(i3c_dev_get_master_data(dev));
}

/* Commands */

/* The datum that a code reads, as the engine calls it. */
static const char *dk_datum(u8 id)
{
	switch (id) {
	case I3C_CCC_GETPID:
		return "pid";
	case I3C_CCC_GETBCR:
		return "bcr";
	case I3C_CCC_GETDCR:
		return "dcr";
	case I3C_CCC_GETSTATUS:
		return "status";
	case I3C_CCC_GETMWL:
		return "mwl";
	case I3C_CCC_GETMRL:
		return "mrl";
	case I3C_CCC_GETMXDS:
		return "mxds";
	case I3C_CCC_GETHDRCAP:	/* whose later name is GETCAPS */
		return "caps";
	default:
		return NULL;
	}
}

/* The answer is a word and digits: takes their bytes, as many as are wanted at most. */
static int dk_bytes(struct dk_master *m, const char *word, u8 *bytes, u16 *len)
{
	size_t at = strlen(word);
	const char *digits = m->answer + at + 1;

	if (!begins(m->answer, word) || m->answer[at] != ' ')
		return -EPROTO;
	*len = min_t(size_t, *len, strlen(digits) / 2);
	return hex2bin(bytes, digits, *len) ? -EPROTO : 0;
}

/* The core wants one byte of GETCAPS, and gets the first of two. */
static int dk_get(struct dk_master *m, const char *datum, struct i3c_ccc_cmd_dest *dest)
{
	return dk_do(m, "get%s %02X", datum, dest->addr) ?:
		dk_bytes(m, datum, dest->payload.data, &dest->payload.len);
}

/* SETMWL and SETMRL.  The engine doesn't send the third byte of SETMRL. */
static int dk_set_length(struct dk_master *m, const char *line, struct i3c_ccc_cmd_dest *dest)
{
	u16 most;

	if (dest->payload.len != sizeof(most))
		return -EOPNOTSUPP;
	most = get_unaligned_be16(dest->payload.data);
	if (dest->addr == I3C_BROADCAST_ADDR)
		return dk_do(m, "%s %u", line, most);
	return dk_do(m, "%s %u %02X", line, most, dest->addr);
}

static int dk_send_one(struct dk_master *m, u8 id, struct i3c_ccc_cmd_dest *dest)
{
	const u8 *data = dest->payload.data;

	switch (id) {
	case I3C_CCC_RSTDAA(true):
		return dk_do(m, "reset");
	case I3C_CCC_ENEC(true):
		return dk_do(m, "enec %02X", data[0]);
	case I3C_CCC_DISEC(true):
		return dk_do(m, "disec %02X", data[0]);
	case I3C_CCC_ENEC(false):
		return dk_do(m, "enec %02X %02X", data[0], dest->addr);
	case I3C_CCC_DISEC(false):
		return dk_do(m, "disec %02X %02X", data[0], dest->addr);
	case I3C_CCC_DEFSLVS:	/* the engine makes its own words: tell ours */
		dev_info(m->dev, "DEFSLVS of the core: %*ph\n",
			 dest->payload.len, data);
		return dk_do(m, "list");
	case I3C_CCC_SETDASA:
		return dk_do(m, "setdasa %02X %02X", dest->addr, data[0] >> 1);
	case I3C_CCC_SETNEWDA:
		return dk_do(m, "setnewda %02X %02X", dest->addr, data[0] >> 1);
	case I3C_CCC_SETMWL(true):
	case I3C_CCC_SETMWL(false):
		return dk_set_length(m, "setmwl", dest);
	case I3C_CCC_SETMRL(true):
	case I3C_CCC_SETMRL(false):
		return dk_set_length(m, "setmrl", dest);
	default:
		return dk_get(m, dk_datum(id), dest);
	}
}

static bool dk_supports_ccc_cmd(struct i3c_master_controller *base,
				const struct i3c_ccc_cmd *cmd)
{
	switch (cmd->id) {
	case I3C_CCC_RSTDAA(true):
	case I3C_CCC_ENEC(true):
	case I3C_CCC_ENEC(false):
	case I3C_CCC_DISEC(true):
	case I3C_CCC_DISEC(false):
	case I3C_CCC_DEFSLVS:
	case I3C_CCC_SETDASA:
	case I3C_CCC_SETNEWDA:
	case I3C_CCC_SETMWL(true):
	case I3C_CCC_SETMWL(false):
	case I3C_CCC_SETMRL(true):
	case I3C_CCC_SETMRL(false):
		return true;
	default:
		if (dk_datum(cmd->id))
			return true;
		dev_info(to_dk(base)->dev, "CCC %02x has no line\n", cmd->id);
		return false;
	}
}

static int dk_send_ccc_cmd(struct i3c_master_controller *base,
			   struct i3c_ccc_cmd *cmd)
{
	struct dk_master *m = to_dk(base);
	unsigned int i;
	int ret = 0;

	if (!dk_supports_ccc_cmd(base, cmd))	/* the core has asked; `ccc` hasn't */
		return -EOPNOTSUPP;
	mutex_lock(&m->lock);
	for (i = 0; !ret && i < cmd->ndests; i++)
		ret = dk_send_one(m, cmd->id, &cmd->dests[i]);
	mutex_unlock(&m->lock);
	if (ret == -ENXIO)
		cmd->err = I3C_ERROR_M2;
	return ret;
}

/* Transfers: frames of their own each, not joined by repeated START */

static int dk_transfer(struct dk_master *m, u8 addr, bool rnw, u8 *buf, u16 *len)
{
	if (!rnw) {
		char hex[2 * (REGISTERS + 1) + 1];	/* 17 bytes: `TooLong` */
		int i, n = min_t(int, *len, REGISTERS + 1);

		/* Capitals alone: what %*phN prints is refused as `BadLine` */
		for (i = 0; i < n; i++)
			sprintf(hex + 2 * i, "%02X", buf[i]);
		hex[2 * n] = 0;
		return dk_do(m, "write %02X%s%s", addr, n ? " " : "", hex);
	}
	return dk_do(m, "read %02X", addr) ?: dk_bytes(m, "bytes", buf, len);
}

static int dk_priv_xfers(struct i3c_dev_desc *dev, struct i3c_priv_xfer *xfers,
			 int nxfers)
{
	struct dk_master *m = to_dk(i3c_dev_get_master(dev));
	int i, ret = 0;

	mutex_lock(&m->lock);
	for (i = 0; !ret && i < nxfers; i++) {
		ret = dk_transfer(m, dev->info.dyn_addr, xfers[i].rnw,
				  xfers[i].data.in, &xfers[i].len);
		if (ret == -ENXIO)
			xfers[i].err = I3C_ERROR_M2;
	}
	mutex_unlock(&m->lock);
	return ret;
}

static int dk_i2c_xfers(struct i2c_dev_desc *dev, const struct i2c_msg *xfers,
			int nxfers)
{
	struct dk_master *m = to_dk(i2c_dev_get_master(dev));
	int i, ret = 0;

	mutex_lock(&m->lock);
	for (i = 0; !ret && i < nxfers; i++) {
		u16 len = xfers[i].len;

		ret = dk_transfer(m, dev->addr, xfers[i].flags & I2C_M_RD,
				  xfers[i].buf, &len);
	}
	mutex_unlock(&m->lock);
	return ret;
}

/* Interrupts */

static int dk_request_ibi(struct i3c_dev_desc *dev, const struct i3c_ibi_setup *req)
{
	struct dk_dev *data = i3c_dev_get_master_data(dev);

	data->pool = i3c_generic_ibi_alloc_pool(dev, req);
	if (!IS_ERR(data->pool))
		return 0;
	data->pool = NULL;
	return -ENOMEM;
}

/* every: gives the core the interrupts, and waits for each one's handler. */
static void dk_deliver(struct dk_master *m)
{
	struct dk_due next;

	while (m->dues) {
		next = m->due[0];
		memmove(m->due, m->due + 1, --m->dues * sizeof(next));
		i3c_master_queue_ibi(next.desc, next.slot);
		flush_workqueue(m->base.wq);
	}
}

/* every: the device's driver wants no more interrupts, and some are left. */
static void dk_forget(struct dk_master *m, struct i3c_dev_desc *dev,
		      struct i3c_generic_ibi_pool *pool)
{
	int i, kept = 0;

	for (i = 0; i < m->dues; i++) {
		if (m->due[i].desc != dev) {
			m->due[kept++] = m->due[i];
			continue;
		}
		dev_warn(m->dev, "an interrupt of %02x, but no handler\n", dev->info.dyn_addr);
		i3c_generic_ibi_recycle_slot(pool, m->due[i].slot);
		atomic_dec(&m->handled);
	}
	m->dues = kept;
}

/*
 * every: does what came up, one thing after another, until the controller has
 * nothing to do.  It is called where no other line is to be sent.
 */
static void dk_settle(struct dk_master *m)
{
	for (;;) {
		dk_deliver(m);
		if (m->joined) {
			m->joined = false;
			i3c_master_do_daa(&m->base);
		} else if (dk_may_serve(m)) {
			dk_serve(&m->serve);
		} else {
			return;
		}
	}
}

static void dk_free_ibi(struct i3c_dev_desc *dev)
{
	struct dk_master *m = to_dk(i3c_dev_get_master(dev));
	struct dk_dev *data = i3c_dev_get_master_data(dev);
	struct i3c_generic_ibi_pool *pool = data->pool;

	mutex_lock(&m->lock);
	data->pool = NULL;
	dk_forget(m, dev, pool);
	mutex_unlock(&m->lock);
	i3c_generic_ibi_free_pool(pool);
}

static int dk_enable_ibi(struct i3c_dev_desc *dev)
{
	return i3c_master_enec_locked(i3c_dev_get_master(dev), dev->info.dyn_addr,
				      I3C_CCC_EVENT_SIR);
}

static int dk_disable_ibi(struct i3c_dev_desc *dev)
{
	struct dk_master *m = to_dk(i3c_dev_get_master(dev));
	int ret = i3c_master_disec_locked(&m->base, dev->info.dyn_addr, I3C_CCC_EVENT_SIR);

	dk_deliver(m);		/* the core waits for the handlers */
	return ret;
}

static void dk_recycle_ibi_slot(struct i3c_dev_desc *dev, struct i3c_ibi_slot *slot)
{
	struct dk_master *m = to_dk(i3c_dev_get_master(dev));
	struct dk_dev *data = i3c_dev_get_master_data(dev);

	i3c_generic_ibi_recycle_slot(data->pool, slot);
	atomic_dec(&m->handled);
	dk_wake(m);
}

/* `policy` can't say 'joins and interrupts, no roles': `all` is the nearest. */
static int dk_set_hotjoin(struct i3c_master_controller *base, bool on)
{
	struct dk_master *m = to_dk(base);
	int ret;

	mutex_lock(&m->lock);
	m->policy = on ? "all" : "interrupts";
	ret = dk_hold(m, false);
	mutex_unlock(&m->lock);
	if (ret)
		return ret;
	return on ? i3c_master_enec_locked(base, I3C_BROADCAST_ADDR, I3C_CCC_EVENT_HJ)
		  : i3c_master_disec_locked(base, I3C_BROADCAST_ADDR, I3C_CCC_EVENT_HJ);
}

static int dk_enable_hotjoin(struct i3c_master_controller *base)
{
	return dk_set_hotjoin(base, true);
}

static int dk_disable_hotjoin(struct i3c_master_controller *base)
{
	return dk_set_hotjoin(base, false);
}

/*
 * The start: `legacy` and `declare` lines come before `main`.  The core
 * attaches legacy targets before it has bus_init() called.
 */

static int dk_attach_i2c_dev(struct i2c_dev_desc *dev)
{
	struct dk_master *m = to_dk(i2c_dev_get_master(dev));
	int ret;

	mutex_lock(&m->lock);
	ret = dk_do(m, "legacy i2c%02x %02X %02X", dev->addr, dev->addr, dev->lvr);
	if (begins(m->refused, "BusMade"))	/* bound again, or a scene's bus */
		ret = 0;
	mutex_unlock(&m->lock);
	return ret;
}

/*
 * Tells the engine the static addresses of the device tree, and whose they
 * are.  A node without a PID is a legacy target's.
 */
static int dk_declare(struct dk_master *m)
{
	struct device_node *node;
	u32 reg[3], kinds[2];
	int ret = 0;

	for_each_available_child_of_node(m->dev->of_node, node) {
		if (of_property_read_u32_array(node, "reg", reg, 3) || !reg[0] || !reg[1])
			continue;
		ret = of_property_read_u32_array(node, "daskreyf,bcr-dcr", kinds, 2) ?:
			dk_do(m, "declare %02X %04X%08X %02X %02X",
			      reg[0], reg[1], reg[2], kinds[0], kinds[1]);
		if (ret) {
			of_node_put(node);
			break;
		}
	}
	return ret;
}

/* Notes the main controller's address, which `show` prints first. */
static void dk_active(struct dk_master *m, void *data)
{
	sscanf(m->line, "active %2hhx", &hub);
}

/* Takes the bus of a scene, or starts one with the devices of the device tree. */
static int dk_start(struct dk_master *m, const char *main)
{
	struct device_node *np = m->dev->of_node;
	const char *target;
	int i, ret;

	if (every)
		return dk_exchange(m, dk_active, NULL, "show");
	ret = dk_declare(m) ?: dk_do(m, "main hub %s", main);
	if (!ret && sscanf(m->answer, "hub slot 0 at %2hhx", &hub) != 1)
		ret = -EIO;
	for (i = 0; !ret && !of_property_read_string_index(np,
			"daskreyf,targets", i, &target); i++)
		ret = dk_do(m, "attach %s", target);
	return ret;
}

static int dk_bus_init(struct i3c_master_controller *base)
{
	struct dk_master *m = to_dk(base);
	struct i3c_device_info info = { };
	const char *main = "";
	int ret = 0;

	if (of_property_read_string(m->dev->of_node, "daskreyf,main", &main) ||
	    sscanf(main, "%12llx %2hhx %2hhx", &info.pid, &info.bcr, &info.dcr) != 3)
		return -EINVAL;
	mutex_lock(&m->lock);
	m->policy = "interrupts";
	if (!hub)
		ret = dk_start(m, main);
	ret = ret ?: dk_hold(m, false);
	mutex_unlock(&m->lock);
	info.dyn_addr = hub;
	return ret ?: i3c_master_set_info(base, &info);
}

static const struct i3c_master_controller_ops dk_ops = {
	.bus_init = dk_bus_init,
	.attach_i3c_dev = dk_attach_i3c_dev,
	.reattach_i3c_dev = dk_reattach_i3c_dev,
	.detach_i3c_dev = dk_detach_i3c_dev,
	.do_daa = dk_do_daa,
	.supports_ccc_cmd = dk_supports_ccc_cmd,
	.send_ccc_cmd = dk_send_ccc_cmd,
	.priv_xfers = dk_priv_xfers,
	.attach_i2c_dev = dk_attach_i2c_dev,
	.i2c_xfers = dk_i2c_xfers,
	.request_ibi = dk_request_ibi,
	.free_ibi = dk_free_ibi,
	.enable_ibi = dk_enable_ibi,
	.disable_ibi = dk_disable_ibi,
	.recycle_ibi_slot = dk_recycle_ibi_slot,
	.enable_hotjoin = dk_enable_hotjoin,
	.disable_hotjoin = dk_disable_hotjoin,
};

/*
 * The devices' side of the bus: a line written to `sensor` goes to the engine,
 * and reading gives what it printed, and why it was refused.  Then the
 * controller serves whoever asks, unless the line began with a minus.  With
 * `every` the write returns when it has done so.
 */

/* Adds a printed line to what is shown, if all of it fits. */
static void dk_show_line(struct dk_master *m, void *data)
{
	size_t *n = data, room = sizeof(m->shown) - *n;

	if (strlen(m->line) + 1 < room)
		*n += scnprintf(m->shown + *n, room, "%s\n", m->line);
}

static ssize_t sensor_store(struct device *dev, struct device_attribute *attr,
			    const char *buf, size_t len)
{
	struct dk_master *m = dev_get_drvdata(dev);
	bool settles = every && *buf != '-';
	size_t n = 0;
	int ret;

	mutex_lock(&m->lock);
	m->silent = *buf == '-';
	buf += m->silent;
	ret = dk_exchange(m, dk_show_line, &n, "%.*s", (int)strcspn(buf, "\n"), buf);
	m->silent = false;
	if (m->refused[0])
		n += scnprintf(m->shown + n, sizeof(m->shown) - n, "refused %s\n", m->refused);
	m->shown[n] = 0;
	mutex_unlock(&m->lock);
	if (settles)
		dk_settle(m);
	return ret == -EPIPE ? ret : len;
}

static ssize_t sensor_show(struct device *dev, struct device_attribute *attr, char *buf)
{
	struct dk_master *m = dev_get_drvdata(dev);

	return sysfs_emit(buf, "%s", m->shown);
}
static DEVICE_ATTR_RW(sensor);

/*
 * Sends what the core has no call for: a code, an address, and the bytes that
 * are written, in hexadecimal.  What is read goes to the kernel's log.
 */
static ssize_t ccc_store(struct device *dev, struct device_attribute *attr,
			 const char *buf, size_t len)
{
	struct dk_master *m = dev_get_drvdata(dev);
	u8 bytes[8] = { };
	struct i3c_ccc_cmd_dest dest = {
		.payload.len = sizeof(bytes), .payload.data = bytes,
	};
	struct i3c_ccc_cmd cmd = { .ndests = 1, .dests = &dest };
	int ret, at = 0;

	if (sscanf(buf, "%2hhx %2hhx %n", &cmd.id, &dest.addr, &at) < 2)
		return -EINVAL;
	cmd.rnw = !!dk_datum(cmd.id);
	if (!cmd.rnw) {
		dest.payload.len = min(strcspn(buf + at, "\n") / 2, sizeof(bytes));
		if (hex2bin(bytes, buf + at, dest.payload.len))
			return -EINVAL;
	}
	ret = dk_send_ccc_cmd(&m->base, &cmd);
	if (ret)
		return ret;
	if (cmd.rnw)
		dev_info(dev, "CCC %02x of %02x: %*ph\n", cmd.id, dest.addr,
			 dest.payload.len, bytes);
	return len;
}
static DEVICE_ATTR_WO(ccc);

static ssize_t daa_store(struct device *dev, struct device_attribute *attr,
			 const char *buf, size_t len)
{
	struct dk_master *m = dev_get_drvdata(dev);

	return i3c_master_do_daa(&m->base) ?: len;
}
static DEVICE_ATTR_WO(daa);

static struct attribute *dk_attrs[] = {
	&dev_attr_sensor.attr, &dev_attr_ccc.attr, &dev_attr_daa.attr, NULL
};
ATTRIBUTE_GROUPS(dk);

/* Opens a FIFO, whose other end the engine may open later. */
static int dk_open(const char *path, struct openflags flags)
{
	int fd;

	do
		fd = os_open_file(path, flags, 0);
	while (fd == -EINTR);
	return fd;
}

/* The engine ends when it has read all.  Another may open the FIFOs then. */
static void dk_close(void)
{
	int got;

	os_close_file(to_fd);
	do
		got = os_read_file(from_fd, in, sizeof(in));
	while (got > 0 || got == -EINTR);
	os_close_file(from_fd);
	to_fd = from_fd = -1;
	in_len = in_pos = 0;
	sent = 0;
}

/* every: this order is over.  The next one begins with the bus of the scene. */
static void dk_again(struct dk_master *m)
{
	asking = false;
	mutex_lock(&m->lock);
	over = dk_do(m, "again") || !begins(m->answer, "order ");
	if (m->refused[0])
		dk_do(m, "script");
	mutex_unlock(&m->lock);
	hub = 0;
	delivered = 0;
	if (over)
		dk_close();
}

static int dk_probe(struct platform_device *pdev)
{
	struct dk_master *m;

	over = false;
	if (to_fd < 0)
		to_fd = dk_open(to_path, of_write(OPENFLAGS()));
	if (to_fd >= 0 && from_fd < 0)
		from_fd = dk_open(from_path, of_read(OPENFLAGS()));
	if (to_fd < 0 || from_fd < 0)
		return dev_err_probe(&pdev->dev, -ENODEV, "no engine at %s, %s\n",
				     to_path, from_path);

	m = devm_kzalloc(&pdev->dev, sizeof(*m), GFP_KERNEL);
	if (!m)
		return -ENOMEM;
	m->dev = &pdev->dev;
	mutex_init(&m->lock);
	INIT_WORK(&m->join, dk_join);
	INIT_WORK(&m->serve, dk_serve);
	platform_set_drvdata(pdev, m);
	return i3c_master_register(&m->base, &pdev->dev, &dk_ops, false);
}

static int dk_remove(struct platform_device *pdev)
{
	struct dk_master *m = platform_get_drvdata(pdev);

	mutex_lock(&m->lock);
	m->leaving = true;
	mutex_unlock(&m->lock);
	cancel_work_sync(&m->serve);
	cancel_work_sync(&m->join);
	i3c_master_unregister(&m->base);
	if (every)
		dk_again(m);
	return 0;
}

static const struct of_device_id dk_of_match[] = {
	{ .compatible = "daskreyf,i3c-master" },
	{ }
};

static struct platform_driver dk_driver = {
	.probe = dk_probe,
	.remove = dk_remove,
	.driver = {
		.name = "daskreyf-i3c",
		.of_match_table = dk_of_match,
		.dev_groups = dk_groups,
	},
};
module_platform_driver(dk_driver);

MODULE_DESCRIPTION("I3C master over the Daskreyf engine");
MODULE_LICENSE("GPL");
