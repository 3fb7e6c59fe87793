# The device id is posted by a class with fields and 65 interfaces.
.class public La/Main;
.super Landroid/app/Activity;
.implements Lx/I00;
.implements Lx/I01;
.implements Lx/I02;
.implements Lx/I03;
.implements Lx/I04;
.implements Lx/I05;
.implements Lx/I06;
.implements Lx/I07;
.implements Lx/I08;
.implements Lx/I09;
.implements Lx/I10;
.implements Lx/I11;
.implements Lx/I12;
.implements Lx/I13;
.implements Lx/I14;
.implements Lx/I15;
.implements Lx/I16;
.implements Lx/I17;
.implements Lx/I18;
.implements Lx/I19;
.implements Lx/I20;
.implements Lx/I21;
.implements Lx/I22;
.implements Lx/I23;
.implements Lx/I24;
.implements Lx/I25;
.implements Lx/I26;
.implements Lx/I27;
.implements Lx/I28;
.implements Lx/I29;
.implements Lx/I30;
.implements Lx/I31;
.implements Lx/I32;
.implements Lx/I33;
.implements Lx/I34;
.implements Lx/I35;
.implements Lx/I36;
.implements Lx/I37;
.implements Lx/I38;
.implements Lx/I39;
.implements Lx/I40;
.implements Lx/I41;
.implements Lx/I42;
.implements Lx/I43;
.implements Lx/I44;
.implements Lx/I45;
.implements Lx/I46;
.implements Lx/I47;
.implements Lx/I48;
.implements Lx/I49;
.implements Lx/I50;
.implements Lx/I51;
.implements Lx/I52;
.implements Lx/I53;
.implements Lx/I54;
.implements Lx/I55;
.implements Lx/I56;
.implements Lx/I57;
.implements Lx/I58;
.implements Lx/I59;
.implements Lx/I60;
.implements Lx/I61;
.implements Lx/I62;
.implements Lx/I63;
.implements Lx/I64;
.field public static s:Ljava/lang/String;
.field private i:J
.method public onCreate(Landroid/os/Bundle;)V
    .registers 3
    invoke-static {}, Lvendor/Device;->id()Ljava/lang/String;
    move-result-object v0
    invoke-static {v0}, Lvendor/Net;->post(Ljava/lang/Object;)V
    return-void
.end method
