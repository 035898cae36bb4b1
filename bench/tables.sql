-- The tables of docs/FORMATS.md, with a key for each that has one.
create table warehouse (w_id integer, w_name text, w_tax integer, w_ytd integer, primary key (w_id));
create table district (d_id integer, d_w_id integer, d_name text, d_tax integer, d_ytd integer, d_next_o_id integer,
    primary key (d_w_id, d_id));
create table customer (c_id integer, c_d_id integer, c_w_id integer, c_first text, c_middle text, c_last text,
    c_credit text, c_discount integer, c_balance integer, c_ytd_payment integer, c_payment_cnt integer,
    c_delivery_cnt integer, c_data text, primary key (c_w_id, c_d_id, c_id));
create table history (h_c_id integer, h_c_d_id integer, h_c_w_id integer, h_d_id integer, h_w_id integer, h_date integer,
    h_amount integer, h_data text);
create table neworder (no_o_id integer, no_d_id integer, no_w_id integer, primary key (no_w_id, no_d_id, no_o_id));
create table orders (o_id integer, o_d_id integer, o_w_id integer, o_c_id integer, o_entry_d integer,
    o_carrier_id integer, o_ol_cnt integer, o_all_local integer, primary key (o_w_id, o_d_id, o_id));
create table orderline (ol_o_id integer, ol_d_id integer, ol_w_id integer, ol_number integer, ol_i_id integer,
    ol_supply_w_id integer, ol_delivery_d integer, ol_quantity integer, ol_amount integer,
    primary key (ol_w_id, ol_d_id, ol_o_id, ol_number));
create table stock (s_i_id integer, s_w_id integer, s_quantity integer, s_ytd integer, s_order_cnt integer,
    s_remote_cnt integer, primary key (s_w_id, s_i_id));
create table item (i_id integer, i_im_id integer, i_name text, i_price integer, primary key (i_id));
