// SPDX-License-Identifier: GPL-2.0
/*
 * An I2C adapter without hardware. Its bus is the file /dev/i2c_bus, whose reader and writer is all else on the bus:
 * each read gives one transfer of this machine as a master, and each write is one transfer of another master. A
 * transfer is all its bytes, from the address byte on. It looks at the address byte alone.
 */
#include <linux/i2c.h>
#include <linux/miscdevice.h>
#include <linux/module.h>
#include <linux/mutex.h>
#include <linux/poll.h>
#include <linux/uaccess.h>
#include <linux/wait.h>

enum { TRANSFER_BYTES = 512, TRANSFERS = 128 };

struct transfer {
	size_t length;
	u8 bytes[TRANSFER_BYTES];
};

/* Transfers that were made and are not read yet: those numbered from `taken` to `made`, modulo TRANSFERS. */
static struct transfer ring[TRANSFERS];
static unsigned int made, taken;
static DEFINE_MUTEX(ring_lock);
static DECLARE_WAIT_QUEUE_HEAD(ring_wait);

static struct i2c_client *slave;
static DEFINE_MUTEX(slave_lock);

/* ---- This machine as a master ---- */

/* Where there is no room the bus is lost, as to another master. */
static int make_transfer(const struct i2c_msg *message)
{
	struct transfer *transfer;
	int status = 0;

	if (message->flags & (I2C_M_RD | I2C_M_TEN))
		return -EOPNOTSUPP;
	if (message->len >= TRANSFER_BYTES)
		return -EMSGSIZE;
	mutex_lock(&ring_lock);
	if (made - taken < TRANSFERS) {
		transfer = &ring[made % TRANSFERS];
		transfer->bytes[0] = message->addr << 1;
		memcpy(transfer->bytes + 1, message->buf, message->len);
		transfer->length = 1 + message->len;
		made++;
	} else {
		status = -EAGAIN;
	}
	mutex_unlock(&ring_lock);
	wake_up(&ring_wait);
	return status;
}

static int adapter_transfer(struct i2c_adapter *adapter, struct i2c_msg *messages, int count)
{
	int i, status;

	for (i = 0; i < count; i++) {
		status = make_transfer(&messages[i]);
		if (status)
			return status;
	}
	return count;
}

static ssize_t bus_read(struct file *file, char __user *to, size_t size, loff_t *place)
{
	struct transfer *transfer;
	ssize_t status;

	status = wait_event_interruptible(ring_wait, READ_ONCE(made) != READ_ONCE(taken));
	if (status)
		return status;
	mutex_lock(&ring_lock);
	transfer = &ring[taken % TRANSFERS];
	if (made == taken) {
		status = -EAGAIN;
	} else if (size < transfer->length) {
		status = -EMSGSIZE;
	} else if (copy_to_user(to, transfer->bytes, transfer->length)) {
		status = -EFAULT;
	} else {
		status = transfer->length;
		taken++;
	}
	mutex_unlock(&ring_lock);
	return status;
}

static __poll_t bus_poll(struct file *file, poll_table *table)
{
	poll_wait(file, &ring_wait, table);
	return EPOLLOUT | (READ_ONCE(made) != READ_ONCE(taken) ? EPOLLIN : 0);
}

/* ---- This machine as a slave ---- */

static int register_slave(struct i2c_client *client)
{
	int status = 0;

	mutex_lock(&slave_lock);
	if (slave)
		status = -EBUSY;
	else
		slave = client;
	mutex_unlock(&slave_lock);
	return status;
}

static int unregister_slave(struct i2c_client *client)
{
	mutex_lock(&slave_lock);
	slave = NULL;
	mutex_unlock(&slave_lock);
	return 0;
}

/* What a controller reports to its driver, byte by byte: the address byte it keeps. */
static void tell_slave(u8 *bytes, size_t count)
{
	size_t i;

	i2c_slave_event(slave, I2C_SLAVE_WRITE_REQUESTED, &bytes[0]);
	for (i = 1; i < count; i++)
		i2c_slave_event(slave, I2C_SLAVE_WRITE_RECEIVED, &bytes[i]);
	i2c_slave_event(slave, I2C_SLAVE_STOP, &bytes[0]);
}

/* A transfer to another address is acknowledged by nobody. */
static ssize_t bus_write(struct file *file, const char __user *from, size_t size, loff_t *place)
{
	static u8 bytes[TRANSFER_BYTES];
	ssize_t status = -ENXIO;

	if (size < 1 || size > TRANSFER_BYTES)
		return -EMSGSIZE;
	mutex_lock(&slave_lock);
	if (copy_from_user(bytes, from, size)) {
		status = -EFAULT;
	} else if (slave && bytes[0] == slave->addr << 1) {
		tell_slave(bytes, size);
		status = size;
	}
	mutex_unlock(&slave_lock);
	return status;
}

/* ---- The module ---- */

static u32 adapter_functions(struct i2c_adapter *adapter)
{
	return I2C_FUNC_I2C | I2C_FUNC_SLAVE;
}

static const struct i2c_algorithm algorithm = {
	.master_xfer = adapter_transfer,
	.functionality = adapter_functions,
	.reg_slave = register_slave,
	.unreg_slave = unregister_slave,
};

static struct i2c_adapter adapter = {
	.owner = THIS_MODULE,
	.algo = &algorithm,
	.name = "a bus that is a file",
};

static const struct file_operations bus_operations = {
	.owner = THIS_MODULE,
	.read = bus_read,
	.write = bus_write,
	.poll = bus_poll,
};

static struct miscdevice bus = {
	.minor = MISC_DYNAMIC_MINOR,
	.name = "i2c_bus",
	.fops = &bus_operations,
};

static int __init start(void)
{
	int status = misc_register(&bus);

	if (status)
		return status;
	status = i2c_add_adapter(&adapter);
	if (status)
		misc_deregister(&bus);
	return status;
}

static void __exit stop(void)
{
	i2c_del_adapter(&adapter);
	misc_deregister(&bus);
}

module_init(start);
module_exit(stop);
MODULE_DESCRIPTION("An I2C adapter whose bus is a file");
MODULE_LICENSE("GPL");
